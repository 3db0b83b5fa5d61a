// The sets of elements, from fixed seeds.

use crate::element::{code, collapsed, coordinate_limit, corners, greatest_level, within_limit, Element};

// A small generator of random numbers (splitmix64).
pub struct Random(pub u64);

impl Random {
    pub fn next(&mut self) -> u64 {
        self.0 = self.0.wrapping_add(0x9e37_79b9_7f4a_7c15);
        let mut z = self.0;
        z = (z ^ (z >> 30)).wrapping_mul(0xbf58_476d_1ce4_e5b9);
        z = (z ^ (z >> 27)).wrapping_mul(0x94d0_49bb_1331_11eb);
        z ^ (z >> 31)
    }

    // A number from a to b.
    pub fn range(&mut self, a: i64, b: i64) -> i64 {
        a + (self.next() % (b - a + 1) as u64) as i64
    }

    pub fn pick<T: Copy>(&mut self, of: &[T]) -> T {
        of[(self.next() % of.len() as u64) as usize]
    }
}

// A generator of its own for what has these coordinates.
pub fn of_its_own(coords: &[i64]) -> Random {
    Random(coords.iter().fold(1, |seed, &x| Random(seed ^ x as u64).next()))
}

// The coordinates that `make` draws; where two corners are at one place, those that it draws from a generator of their own, so that all
// that is drawn behind them stays as it is.
pub fn uncollapsed(r: &mut Random, kind: u8, make: impl Fn(&mut Random) -> Vec<i64>) -> Vec<i64> {
    let mut coords = make(r);
    while collapsed(kind, &coords) {
        coords = make(&mut of_its_own(&coords));
    }
    coords
}

// Two different corners of a kind.
pub fn two_corners(r: &mut Random, kind: u8) -> (usize, usize) {
    let corners = corners(kind);
    let first = r.range(0, corners.len() as i64 - 1) as usize;
    let second = first + r.range(1, corners.len() as i64 - 1) as usize;
    (corners[first], corners[second % corners.len()])
}

// Two corners of an element put at one place.
pub fn collapse(r: &mut Random, kind: u8, coords: &mut [i64]) {
    let (from, to) = two_corners(r, kind);
    coords.copy_within(2 * from..2 * from + 2, 2 * to);
}

fn clamp(kind: u8, x: i64) -> i64 {
    let most = coordinate_limit(kind);
    x.clamp(-most, most)
}

// A straight-sided element of a size, turned by a shear, its nodes moved by at most `noise`.
pub fn shaken(r: &mut Random, kind: u8, size: i64, noise: i64) -> Vec<i64> {
    uncollapsed(r, kind, |r| shaken_nodes(r, kind, size, noise))
}

// The same, its corners anywhere.
fn shaken_nodes(r: &mut Random, kind: u8, size: i64, noise: i64) -> Vec<i64> {
    let half: Vec<(i64, i64)> = match kind {
        6 => vec![(0, 0), (2, 0), (0, 2), (1, 0), (1, 1), (0, 1)],
        8 => vec![(0, 0), (1, 0), (2, 0), (0, 1), (2, 1), (0, 2), (1, 2), (2, 2)],
        _ => vec![(0, 0), (1, 0), (2, 0), (0, 1), (1, 1), (2, 1), (0, 2), (1, 2), (2, 2)],
    };
    let (a, b) = (r.range(-size, size) / 2, r.range(-size, size) / 2);
    let (u, v) = (r.range(-size, size), r.range(-size, size));
    let mut out = Vec::new();
    for (p, q) in half {
        let x = u + (p * size + q * a) / 2 + r.range(-noise, noise);
        let y = v + (q * size + p * b) / 2 + r.range(-noise, noise);
        out.push(clamp(kind, x));
        out.push(clamp(kind, y));
    }
    out
}

// A triangle whose J nearly touches zero on an edge: G(t, 4) of the rules at the scale k, the middle of its edge moved.
pub fn touching(k: i64, e: i64, x: i64) -> Vec<i64> {
    let points = [(-8 * k, 0), (8 * k, 0), (0, 16 * k), (x, 8 * k - e), (8 * k, 8 * k), (-8 * k, 8 * k)];
    points.iter().flat_map(|&(a, b)| [clamp(6, a), clamp(6, b)]).collect()
}

// Coordinates at the limits and about zero.
pub fn outermost(r: &mut Random, kind: u8) -> Vec<i64> {
    let most = coordinate_limit(kind);
    (0..2 * kind as usize).map(|_| r.pick(&[most, -most, 0, most - 1, 1])).collect()
}

// A shaken element whose nodes all lie near a line.
fn flattened(r: &mut Random, kind: u8) -> Vec<i64> {
    let mut c = shaken(r, kind, 64, 2);
    let (a, b) = (r.range(-3, 3), r.range(-3, 3));
    for k in 0..kind as usize {
        let x = c[2 * k];
        c[2 * k + 1] = clamp(kind, (x * a + c[2 * k + 1] * b) / 16 + r.range(-1, 1));
    }
    c
}

// Triangles that settle, or stay open, at each level up to the greatest; found by a search over `touching`.
const DEEP: &[(i64, i64, i64)] = &[
    (1482, 94, 1459), (1953, 122, 1911), (2295, 37, -1151), (2032, 33, 1026), (2817, 44, -1383), (3971, 16, -993),
    (1456, 6, -365), (3423, 132, 2658), (2377, 85, 1792), (3232, 55, 1673), (1258, 28, 744), (495, 17, 366),
    (823, 1, -112), (1460, 49, -1066), (1993, 3, -309), (1262, 52, 1022), (1825, 1, -169), (387, 24, -384),
    (2958, 184, -2945), (607, 33, 566), (581, 9, 289), (693, 11, 349), (1414, 24, -738), (1399, 49, 1045),
    (3903, 18, -1065), (2256, 8, 544), (3885, 4, 499), (831, 20, -515), (3337, 81, 2077), (820, 10, 362),
    (1770, 4, 337), (3035, 120, 2409), (2101, 123, 2026), (3054, 42, -1432), (1239, 33, -808), (339, 8, -208),
    (2638, 132, 2353), (1940, 44, 1167), (3442, 21, -1075),
];

// Whether `verdict` accepts the element and all its coordinates lie within the kind's limit: those farther out are a set of their own.
pub fn is_near(e: &Element) -> bool {
    code(e) == 0 && within_limit(e.kind, &e.coords)
}

fn element(r: &mut Random, kind: u8, coords: Vec<i64>) -> Element {
    let greatest = if kind == 6 { 5 } else { greatest_level(kind) };
    let limit = r.range(0, greatest as i64) as u8;
    Element { kind, limit, coords }
}

pub fn elements() -> Vec<Element> {
    let mut r = Random(20_261_115);
    let mut out = Vec::new();
    for n in 0..19_000u64 {
        let kind = r.pick(&[6, 6, 8, 9]);
        let most = coordinate_limit(kind);
        let coords = match n % 12 {
            // gently curved, curved more and more, folded
            0 | 1 => shaken(&mut r, kind, 40, 5),
            2 | 3 => shaken(&mut r, kind, 40, 8),
            4 | 5 => shaken(&mut r, kind, 200, 45),
            6 => shaken(&mut r, kind, 40, 12),
            7 => shaken(&mut r, kind, 16, 40),
            // tiny
            8 => shaken(&mut r, kind, 3, 1),
            // large
            9 => shaken(&mut r, kind, most / 2, most / 12),
            // at the limits
            10 => uncollapsed(&mut r, kind, |r| outermost(r, kind)),
            // nearly degenerate
            _ => uncollapsed(&mut r, kind, |r| flattened(r, kind)),
        };
        let e = element(&mut r, kind, coords);
        out.push(e);
    }
    // J nearly touches zero on an edge
    for _ in 0..900 {
        let k = r.range(1, 4_000);
        let coords = touching(k, r.range(-k / 8 - 1, k / 8 + 1), r.range(-k, k));
        let limit = r.range(0, 6) as u8;
        out.push(Element { kind: 6, limit, coords });
    }
    for &(k, e, x) in DEEP {
        for limit in [10, r.range(6, 10) as u8] {
            out.push(Element { kind: 6, limit, coords: touching(k, e, x) });
        }
    }
    // refused: the kind, the level, the length; and a coordinate beyond the limit, which may still be near the first node
    for n in 0..200u64 {
        let kind = r.pick(&[6, 8, 9]);
        let mut e = Element { kind, limit: r.range(0, 4) as u8, coords: shaken(&mut r, kind, 40, 8) };
        match n % 4 {
            0 => e.kind = r.pick(&[0, 1, 5, 7, 10, 12, 255]),
            1 => e.limit = r.range(greatest_level(kind) as i64 + 1, 255) as u8,
            2 => e.coords.truncate(r.range(0, 2 * kind as i64 - 1) as usize),
            _ => {
                let at = r.range(0, 2 * kind as i64 - 1) as usize;
                e.coords[at] = (coordinate_limit(kind) + r.range(1, 9)) * r.pick(&[1, -1]);
            }
        }
        out.push(e);
    }
    out
}
