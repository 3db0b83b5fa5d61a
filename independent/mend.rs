// Straightening, from the words of its request: all eight sets of middle nodes are tried, and of those that give a valid triangle the one
// with the fewest nodes is taken, and of equal numbers the one whose first differing node is replaced.

use crate::block::{check, stored};
use crate::element::{triangle_code, Element};
use crate::verdict::Judged;
use std::cmp::Ordering;

// The middle nodes in their order: each node, and the corners of its edge.
const MIDDLES: [(usize, usize, usize); 3] = [(3, 0, 1), (4, 1, 2), (5, 0, 2)];

// Which middle nodes are replaced.
pub type Set = [bool; 3];

pub const KEPT: Set = [false; 3];

// The eight sets, in no order.
fn sets() -> Vec<Set> {
    (0..8).map(|n| [n & 4 != 0, n & 2 != 0, n & 1 != 0]).collect()
}

// The middle of two numbers, rounded down.
fn middle(a: i64, b: i64) -> i64 {
    (a + b).div_euclid(2)
}

// The triangle's coordinates, with these middle nodes at the middles of their edges.
pub fn replaced(coords: &[i64], set: Set) -> Vec<i64> {
    let mut out = coords.to_vec();
    for ((node, a, b), _) in MIDDLES.iter().zip(set).filter(|&(_, is)| is) {
        for c in 0..2 {
            out[2 * node + c] = middle(coords[2 * a + c], coords[2 * b + c]);
        }
    }
    out
}

// Which of two sets comes first.
fn before(a: Set, b: Set) -> Ordering {
    let size = |s: Set| s.iter().filter(|&&is| is).count();
    let first_differing = || match (0..3).find(|&k| a[k] != b[k]) {
        Some(k) if a[k] => Ordering::Less,
        Some(_) => Ordering::Greater,
        None => Ordering::Equal,
    };
    size(a).cmp(&size(b)).then_with(first_differing)
}

// The set that is taken for the triangle at its limit, or none.
fn chosen(e: &Element) -> Option<Set> {
    let is_valid = |&set: &Set| Element { coords: replaced(&e.coords, set), ..e.clone() }.verdict().word == "valid";
    sets().into_iter().filter(is_valid).min_by(|&a, &b| before(a, b))
}

// The set for an element, or the code: the verdict's own, 1 for other kinds, then 22.
pub fn straighten(e: &Element) -> Result<Set, u8> {
    match triangle_code(e) {
        0 => chosen(e).ok_or(22),
        c => Err(c),
    }
}

// What is told of the middle nodes: replaced, the old place, the new place.
pub fn told(coords: &[i64], set: Set) -> Vec<i64> {
    let after = replaced(coords, set);
    let of = |((node, _, _), is): (&(usize, usize, usize), bool)| {
        let at = 2 * node;
        [is as i64, coords[at], coords[at + 1], after[at], after[at + 1]]
    };
    MIDDLES.iter().zip(set).flat_map(of).collect()
}

// Record k of a block, straightened: what is told, and the block afterwards, or the code and the record of the first fault.
pub fn mend(b: &[u8], k: u32) -> Result<(Vec<i64>, Vec<u8>), (u8, usize)> {
    let count = check(b)?;
    let k = k as usize;
    if k >= count {
        return Err((12, 0));
    }
    let r = stored(b, k);
    if r.kind != 6 {
        return Err((1, k));
    }
    let e = r.element();
    let set = if r.signed == 1 { KEPT } else { straighten(&e).map_err(|c| (c, k))? };
    let (mut after, at) = (b.to_vec(), 9 + 80 * k);
    if set != KEPT {
        after[at + 6..at + 8].fill(0);
    }
    for (i, x) in replaced(&e.coords, set).iter().enumerate() {
        after[at + 8 + 4 * i..at + 12 + 4 * i].copy_from_slice(&(*x as i32).to_le_bytes());
    }
    Ok((told(&e.coords, set), after))
}
