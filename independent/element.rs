// One element, straight from the rules: J from the node derivatives, control values by interpolation of J, and the cells of a level.
// Nothing here is shared with the checker: no control point, no cutting rule, no walk.

use crate::ten::{quartic_values, scaled_j};

// Wide enough for all values of an element, wherever in i32 it lies.
pub type Num = i128;

#[derive(Clone)]
pub struct Element {
    pub kind: u8,
    pub limit: u8,
    // as they are asked, x and y in turn; a record holds no other than those of i32
    pub coords: Vec<i64>,
}

pub fn coordinate_limit(kind: u8) -> i64 {
    match kind {
        6 => 65_536,
        10 => 1_024,
        _ => 2_048,
    }
}

pub fn greatest_level(kind: u8) -> u8 {
    match kind {
        6 => 10,
        10 => 5,
        _ => 4,
    }
}

fn is_triangle(kind: u8) -> bool {
    kind == 6 || kind == 10
}

// Whether all these numbers lie within the kind's limit.
pub fn within_limit(kind: u8, l: &[i64]) -> bool {
    l.iter().all(|x| x.abs() <= coordinate_limit(kind))
}

// How far each node lies from the first node, x and y in turn.
fn from_first_node(coords: &[i64]) -> Vec<i64> {
    coords.iter().enumerate().map(|(k, x)| x - coords[k % 2]).collect()
}

// Whether the coordinates of all nodes of an element are accepted, else the code is 4: a record can hold them, and they all lie within the
// kind's limit, or their differences from the first node all do.
pub fn accepted(kind: u8, coords: &[i64]) -> bool {
    let held = coords.iter().all(|&x| x >= i32::MIN as i64 && x <= i32::MAX as i64);
    held && (within_limit(kind, coords) || within_limit(kind, &from_first_node(coords)))
}

// The corner nodes of a kind.
pub fn corners(kind: u8) -> &'static [usize] {
    match kind {
        6 | 10 => &[0, 1, 2],
        8 => &[0, 2, 5, 7],
        _ => &[0, 2, 6, 8],
    }
}

// Whether two corner nodes of an element are at one place, then the code is 21: any two of them, those of a diagonal of a quad too.
pub fn collapsed(kind: u8, coords: &[i64]) -> bool {
    let places: Vec<&[i64]> = corners(kind).iter().map(|&k| &coords[2 * k..2 * k + 2]).collect();
    places.iter().enumerate().any(|(n, place)| places[..n].contains(place))
}

// The kinds that a record can have.
pub const RECORD_KINDS: [u8; 3] = [6, 8, 9];

// The code of a call that takes these kinds: 1, then 2 where it takes a limit, 3, 4, 21.
fn code_among(kinds: &[u8], e: &Element, with_level: bool) -> u8 {
    if !kinds.contains(&e.kind) {
        return 1;
    }
    if with_level && e.limit > greatest_level(e.kind) {
        return 2;
    }
    if e.coords.len() != 2 * e.kind as usize {
        return 3;
    }
    if !accepted(e.kind, &e.coords) {
        return 4;
    }
    if collapsed(e.kind, &e.coords) {
        return 21;
    }
    0
}

// The code of control values, bounds and, with its limit, the verdict on the element: these three take kind 10, too.
pub fn judged_code(e: &Element, with_level: bool) -> u8 {
    code_among(&[6, 8, 9, 10], e, with_level)
}

// The code of every other call on the element.
pub fn code(e: &Element) -> u8 {
    code_among(&RECORD_KINDS, e, true)
}

// The code of a call that takes six-node triangles alone.
pub fn triangle_code(e: &Element) -> u8 {
    code_among(&[6], e, true)
}

pub fn det(a: [Num; 2], b: [Num; 2]) -> Num {
    a[0] * b[1] - a[1] * b[0]
}

impl Element {
    pub fn node(&self, k: usize) -> [Num; 2] {
        [self.coords[2 * k] as Num, self.coords[2 * k + 1] as Num]
    }

    // (p + q + r)²·J of a six-node triangle at the weights p, q, r.
    fn six_node_j(&self, p: Num, q: Num, r: Num) -> Num {
        let w = p + q + r;
        let [a0, a1, a2, m01, m12, m02] = [0, 1, 2, 3, 4, 5].map(|k| self.node(k));
        let mut xi = [0; 2];
        let mut eta = [0; 2];
        for c in 0..2 {
            xi[c] = (4 * q - w) * a1[c] - (4 * p - w) * a0[c] + 4 * (p - q) * m01[c] + 4 * r * (m12[c] - m02[c]);
            eta[c] = (4 * r - w) * a2[c] - (4 * p - w) * a0[c] + 4 * (p - r) * m02[c] + 4 * q * (m12[c] - m01[c]);
        }
        det(xi, eta)
    }

    // 192·w⁴·J of a ten-node triangle at whole weights with the sum w.
    fn ten_node_j(&self, weights: [Num; 3]) -> Num {
        scaled_j([0, 1, 2, 3, 4, 5, 6, 7, 8, 9].map(|k| self.node(k)), weights)
    }

    // Four times the node ij of a quad. The centre c of eight nodes is where 4c plus the corners minus twice the edge nodes is zero.
    fn fourfold(&self, i: usize, j: usize) -> [Num; 2] {
        let place = |i: usize, j: usize| {
            let k = i + 3 * j;
            if self.kind == 8 && k > 4 { k - 1 } else { k }
        };
        if self.kind == 8 && i == 1 && j == 1 {
            let mut s = [0; 2];
            for (weight, nodes) in [(-1, [(0, 0), (2, 0), (0, 2), (2, 2)]), (2, [(1, 0), (0, 1), (2, 1), (1, 2)])] {
                for (a, b) in nodes {
                    let n = self.node(place(a, b));
                    s = [s[0] + weight * n[0], s[1] + weight * n[1]];
                }
            }
            return s;
        }
        let n = self.node(place(i, j));
        [4 * n[0], 4 * n[1]]
    }

    // 16·m³n³·J of a quad at u = p/m, v = q/n.
    fn quad_j(&self, p: Num, m: Num, q: Num, n: Num) -> Num {
        let s = |p: Num, m: Num| [(m - p) * (m - 2 * p), 4 * p * (m - p), p * (2 * p - m)];
        let d = |p: Num, m: Num| [4 * p - 3 * m, 4 * m - 8 * p, 4 * p - m];
        let (su, du, sv, dv) = (s(p, m), d(p, m), s(q, n), d(q, n));
        let mut xu = [0; 2];
        let mut xv = [0; 2];
        for i in 0..3 {
            for j in 0..3 {
                let a = self.fourfold(i, j);
                for c in 0..2 {
                    xu[c] += du[i] * sv[j] * a[c];
                    xv[c] += su[i] * dv[j] * a[c];
                }
            }
        }
        det(xu, xv)
    }

    // J at the grid point (i, j) of level d, at the scale of that level.
    pub fn grid_value(&self, d: u32, i: u64, j: u64) -> Num {
        let w = 1 << d;
        let (i, j) = (i as Num, j as Num);
        match self.kind {
            6 => 2 * self.six_node_j(w - i - j, i, j),
            10 => self.ten_node_j([w - i - j, i, j]),
            _ => exact(36 * self.quad_j(i, w, j, w), 16),
        }
    }

    pub fn on_grid(&self, d: u32, i: u64, j: u64) -> bool {
        let w = 1u64 << d;
        if is_triangle(self.kind) { i + j <= w } else { i <= w && j <= w }
    }

    // The control values of a cell at level d, by interpolation of J, at the scale of the level. A triangle's cell has the corners
    // x[k], y[k] on the grid of its level; a quad's has the lower left corner x[0], y[0].
    pub fn cell_values(&self, d: u32, x: &[u64], y: &[u64]) -> Vec<Num> {
        match self.kind {
            6 => self.six_node_values(d, x, y),
            10 => self.ten_node_values(d, x, y),
            _ => self.quad_values(d, x[0], y[0]),
        }
    }

    fn six_node_values(&self, d: u32, x: &[u64], y: &[u64]) -> Vec<Num> {
        let corner: Vec<Num> = (0..3).map(|k| self.grid_value(d, x[k], y[k])).collect();
        // the form is (c_kk + 2 c_kl + c_ll)/4 at the middle of an edge
        let edge = |k: usize, l: usize| {
            let middle = self.grid_value(d + 1, x[k] + x[l], y[k] + y[l]);
            exact(middle - corner[k] - corner[l], 2)
        };
        vec![corner[0], corner[1], corner[2], edge(0, 1), edge(1, 2), edge(0, 2)]
    }

    fn ten_node_values(&self, d: u32, x: &[u64], y: &[u64]) -> Vec<Num> {
        let weights = |i: u64, j: u64| [(1 << d) - i as Num - j as Num, i as Num, j as Num];
        let v = [0, 1, 2].map(|k| weights(x[k], y[k]));
        quartic_values(|[i, j, k]| self.ten_node_j([0, 1, 2].map(|c| i * v[0][c] + j * v[1][c] + k * v[2][c])))
    }

    fn quad_values(&self, d: u32, x: u64, y: u64) -> Vec<Num> {
        let m = 3 * (1 << d);
        let mut f = [[0; 4]; 4];
        for a in 0..4 {
            for b in 0..4 {
                f[a][b] = self.quad_j(3 * x as Num + a as Num, m, 3 * y as Num + b as Num, m);
            }
        }
        // from the values at 0, 1/3, 2/3, 1 to six times the Bernstein coefficients
        let line = |v: [Num; 4]| {
            [6 * v[0], -5 * v[0] + 18 * v[1] - 9 * v[2] + 2 * v[3], 2 * v[0] - 9 * v[1] + 18 * v[2] - 5 * v[3], 6 * v[3]]
        };
        let mut g = [[0; 4]; 4];
        for b in 0..4 {
            let v = line([f[0][b], f[1][b], f[2][b], f[3][b]]);
            for a in 0..4 {
                g[a][b] = v[a];
            }
        }
        let mut out = vec![0; 16];
        for a in 0..4 {
            let v = line(g[a]);
            for b in 0..4 {
                // 36·64^d·J is 36/(16·729) of quad_j; the two lines gave 36 fold
                out[a + 4 * b] = exact(v[b], 16 * 729);
            }
        }
        out
    }

    pub fn control_values(&self) -> Vec<Num> {
        self.cell_values(0, &[0, 1, 0], &[0, 0, 1])
    }

    pub fn passes(&self, v: &[Num]) -> bool {
        let corners: &[usize] = match self.kind {
            6 => &[0, 1, 2],
            10 => &[0, 4, 14],
            _ => &[0, 3, 12, 15],
        };
        v.iter().enumerate().all(|(k, &z)| if corners.contains(&k) { z > 0 } else { z >= 0 })
    }

    // Each cell of a level, by its corners.
    pub fn cells(&self, d: u32) -> Vec<([u64; 3], [u64; 3])> {
        let w = 1u64 << d;
        let mut out = Vec::new();
        for j in 0..w {
            for i in 0..w {
                if !is_triangle(self.kind) {
                    out.push(([i; 3], [j; 3]));
                } else if i + j < w {
                    out.push(([i, i + 1, i], [j, j, j + 1]));
                    if i + j + 1 < w {
                        out.push(([i + 1, i, i + 1], [j + 1, j + 1, j]));
                    }
                }
            }
        }
        out
    }

    // The quarters of a cell, on the grid of the next level.
    pub fn quarters(&self, x: [u64; 3], y: [u64; 3]) -> Vec<([u64; 3], [u64; 3])> {
        if !is_triangle(self.kind) {
            let (a, b) = (2 * x[0], 2 * y[0]);
            return vec![([a; 3], [b; 3]), ([a + 1; 3], [b; 3]), ([a; 3], [b + 1; 3]), ([a + 1; 3], [b + 1; 3])];
        }
        let e = |v: [u64; 3], k: usize, l: usize| v[k] + v[l];
        let four = |v: [u64; 3]| {
            [
                [2 * v[0], e(v, 0, 1), e(v, 0, 2)],
                [e(v, 0, 1), 2 * v[1], e(v, 1, 2)],
                [e(v, 0, 2), e(v, 1, 2), 2 * v[2]],
                [e(v, 1, 2), e(v, 0, 2), e(v, 0, 1)],
            ]
        };
        let (fx, fy) = (four(x), four(y));
        (0..4).map(|k| (fx[k], fy[k])).collect()
    }
}

// A division without remainder.
pub fn exact(a: Num, b: Num) -> Num {
    assert!(a % b == 0, "{} is no multiple of {}", a, b);
    a / b
}
