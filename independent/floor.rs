// The floor on distortion, from the words of its request: the Jacobian of a triangle is to stay above p percent of the straight-sided one.

use crate::block::{list_of, list_words};
use crate::element::{code, det, Element, Num};
use crate::verdict::{Judged, Verdict};

const GREATEST_LEVEL: u8 = 7;

struct Floor<'a> {
    element: &'a Element,
    // p·S
    floor: Num,
}

impl Floor<'_> {
    // A value that is v = 2·4^d·z says 2·4^d·(100·z - p·S) here: it is positive exactly where 100·z is above p·S.
    fn shifted(&self, d: u32, v: Num) -> Num {
        100 * v - 2 * self.floor * 4_i128.pow(d)
    }
}

impl Judged for Floor<'_> {
    fn element(&self) -> &Element {
        self.element
    }

    fn grid_value(&self, d: u32, i: u64, j: u64) -> Num {
        self.shifted(d, self.element.grid_value(d, i, j))
    }

    fn cell_values(&self, d: u32, x: &[u64], y: &[u64]) -> Vec<Num> {
        self.element.cell_values(d, x, y).iter().map(|&v| self.shifted(d, v)).collect()
    }
}

// S, the Jacobian of the straight-sided triangle: the determinant of A1-A0 and A2-A0.
pub fn straight(e: &Element) -> Num {
    let [a0, a1, a2] = [0, 1, 2].map(|k| e.node(k));
    det([a1[0] - a0[0], a1[1] - a0[1]], [a2[0] - a0[0], a2[1] - a0[1]])
}

// The code: the verdict's own, 21 the last of them, for kind 6 alone and with 7 as its greatest level, then 16 and 17.
pub fn floor_code(p: u8, e: &Element) -> u8 {
    if e.kind != 6 {
        return 1;
    }
    if e.limit > GREATEST_LEVEL {
        return 2;
    }
    match code(e) {
        0 if p < 1 || p > 99 => 16,
        0 if straight(e) <= 0 => 17,
        c => c,
    }
}

// The verdict under the floor of p percent, or the code.
pub fn floor_verdict(p: u8, e: &Element) -> Result<Verdict, u8> {
    match floor_code(p, e) {
        0 => Ok(Floor { element: e, floor: p as Num * straight(e) }.verdict()),
        c => Err(c),
    }
}

// Whether a grid point of level d is bad under the floor; of an element that is accepted.
pub fn falls(p: u8, e: &Element, d: u32) -> bool {
    Floor { element: e, floor: p as Num * straight(e) }.first_bad(d).is_some()
}

// What `verdicts` prints under the floor, its lines: what is signed is the plain verdict, and counts for nothing here.
pub fn floor_list(p: u8, b: &[u8]) -> Vec<String> {
    list_of(b, |r| match floor_verdict(p, &r.element()) {
        Ok(v) => list_words(&v),
        Err(c) => format!("refused {}", c),
    })
}
