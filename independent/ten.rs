// The ten-node triangle: J straight from the shape functions of its nodes, whose derivatives come from the rule for products, and control
// values by interpolation of J. Nothing here is shared with the checker: no control point, and no cutting rule.

use crate::element::{det, exact, Num};

// ---- J

// A factor m·λk - n of a shape function, as (k, m, n): λ0, λ1 and λ2 are the weights of the corners, and add to 1.
type Factor = (usize, Num, Num);

// Twice a shape function: a number and three factors.
type Twice = (Num, [Factor; 3]);

// That of a corner: λk·(3λk - 1)·(3λk - 2).
fn corner(k: usize) -> Twice {
    (1, [(k, 1, 0), (k, 3, 1), (k, 3, 2)])
}

// That of the node on the edge of corners k and l which is nearer to k: 9·λk·λl·(3λk - 1).
fn edge(k: usize, l: usize) -> Twice {
    (9, [(k, 1, 0), (l, 1, 0), (k, 3, 1)])
}

// That of the centre: 54·λ0·λ1·λ2.
fn centre() -> Twice {
    (54, [(0, 1, 0), (1, 1, 0), (2, 1, 0)])
}

// Those of all nodes, in their order.
fn all() -> [Twice; 10] {
    [corner(0), corner(1), corner(2), edge(0, 1), edge(1, 0), edge(1, 2), edge(2, 1), edge(2, 0), edge(0, 2), centre()]
}

// How λ0, λ1 and λ2 change along ξ, and along η.
const ALONG: [[Num; 3]; 2] = [[-1, 1, 0], [-1, 0, 1]];

// w² times the derivative of twice a shape function, at whole weights with the sum w.
fn slope(&(number, [f, g, h]): &Twice, weights: [Num; 3], along: [Num; 3]) -> Num {
    let w: Num = weights.iter().sum();
    // w times a factor, and how the factor changes
    let value = |(k, m, n): Factor| m * weights[k] - n * w;
    let change = |(k, m, _): Factor| m * along[k];
    number * (change(f) * value(g) * value(h) + value(f) * change(g) * value(h) + value(f) * value(g) * change(h))
}

// 192·w⁴·J at whole weights of the corners with the sum w.
pub fn scaled_j(nodes: [[Num; 2]; 10], weights: [Num; 3]) -> Num {
    let mut derivatives = [[0; 2]; 2];
    for (function, node) in all().iter().zip(nodes) {
        for (derivative, along) in derivatives.iter_mut().zip(ALONG) {
            let s = slope(function, weights, along);
            *derivative = [derivative[0] + s * node[0], derivative[1] + s * node[1]];
        }
    }
    // both of them are taken twice
    48 * det(derivatives[0], derivatives[1])
}

// ---- control values

// The places (I, J, K) of the values, in their order: by rising K, then by rising J.
pub fn places() -> impl Iterator<Item = [usize; 3]> {
    (0..=4).flat_map(|k| (0..=4 - k).map(move |j| [4 - j - k, j, k]))
}

const CHOOSE: [[Num; 5]; 5] = [[1, 0, 0, 0, 0], [1, 1, 0, 0, 0], [1, 2, 1, 0, 0], [1, 3, 3, 1, 0], [1, 4, 6, 4, 1]];

// The values of a cell. `form` is scaled J at the cell's own weights, times the fourth power of their sum: the sum of each value times
// 4!/(I!J!K!) and the powers of the weights. So 4! times a value is the fourth difference of the form at 0, by I steps of the first weight,
// J of the second and K of the third.
pub fn quartic_values(form: impl Fn([Num; 3]) -> Num) -> Vec<Num> {
    let mut at = [[[0; 5]; 5]; 5];
    for i in 0..5 {
        for j in 0..5 - i {
            for k in 0..5 - i - j {
                at[i][j][k] = form([i as Num, j as Num, k as Num]);
            }
        }
    }
    places().map(|place| exact(difference(&at, place), 24)).collect()
}

// The difference at 0 by so many steps of each weight.
fn difference(at: &[[[Num; 5]; 5]; 5], [a, b, c]: [usize; 3]) -> Num {
    let mut sum = 0;
    for i in 0..=a {
        for j in 0..=b {
            for k in 0..=c {
                let ways = CHOOSE[a][i] * CHOOSE[b][j] * CHOOSE[c][k];
                sum += if (i + j + k) % 2 == 0 { ways } else { -ways } * at[i][j][k];
            }
        }
    }
    sum
}
