// Triangles under a floor on distortion, and blocks to be listed under one, from fixed seeds.

use crate::answers::words;
use crate::block::block_bytes;
use crate::blocks::{damaged, records};
use crate::element::{coordinate_limit, Element};
use crate::floor::{falls, floor_code, straight};
use crate::sets::{collapse, elements, is_near, shaken, uncollapsed, Random};

// A call of `floor_verdict`.
pub struct Question {
    pub p: u8,
    pub element: Element,
}

impl Question {
    // The call as a line for the program `calls`.
    pub fn line(&self) -> String {
        let e = &self.element;
        format!("floor {} {} {}{}", self.p, e.kind, e.limit, words(&e.coords))
    }
}

const GREATEST_LEVEL: i64 = 7;

// A triangle with p and any limit that is allowed, the greatest more often than another.
fn question(r: &mut Random, p: i64, coords: Vec<i64>) -> Question {
    let limit = r.range(0, GREATEST_LEVEL + 2).min(GREATEST_LEVEL) as u8;
    Question { p: p as u8, element: Element { kind: 6, limit, coords } }
}

fn any_floor(r: &mut Random) -> i64 {
    let p = r.range(1, 99);
    r.pick(&[p, p, p, 1, 10, 25, 50, 75, 99])
}

// ---- curved more and less

// The least percentage of the straight-sided Jacobian on the grid of level 3, rounded down.
fn worst(e: &Element) -> i64 {
    let points = (0..=8).flat_map(|j| (0..=8 - j).map(move |i| (i, j)));
    let least = points.map(|(i, j)| e.grid_value(3, i, j)).min().expect("a grid has points");
    (100 * least).div_euclid(2 * 64 * straight(e)) as i64
}

// A triangle that is curved, with p about where its verdict turns.
fn curved(r: &mut Random) -> Option<Question> {
    let size = r.pick(&[10, 40, 200, 2_000, 30_000]);
    let noise = size * r.range(0, 5) / 32;
    let coords = shaken(r, 6, size, noise);
    let mut q = question(r, 1, coords);
    if floor_code(q.p, &q.element) != 0 {
        return None;
    }
    q.p = (worst(&q.element) + r.range(-1, 2)).clamp(1, 99) as u8;
    Some(q)
}

// Any triangle, and any p.
fn random(r: &mut Random) -> Option<Question> {
    let (size, noise) = r.pick(&[(3, 1), (4, 2), (40, 8), (40, 20), (16, 40), (30_000, 12_000)]);
    let coords = shaken(r, 6, size, noise);
    let p = any_floor(r);
    Some(question(r, p, coords))
}

// ---- between good and bad

// A triangle whose middle node k goes away by (x, y), in steps.
struct Way {
    coords: Vec<i64>,
    k: usize,
    by: (i64, i64),
    steps: i64,
}

impl Way {
    fn at(&self, t: i64) -> Element {
        let most = coordinate_limit(6);
        let mut coords = self.coords.clone();
        for (c, d) in [(2 * self.k, self.by.0), (2 * self.k + 1, self.by.1)] {
            coords[c] = (coords[c] + d * t / self.steps).clamp(-most, most);
        }
        Element { kind: 6, limit: 0, coords }
    }

    // A step at which a point of the grid of level 4 is bad, when at the step before none was; if the way leads from good to bad.
    fn turn(&self, p: u8) -> Option<i64> {
        let bad = |t: i64| falls(p, &self.at(t), 4);
        let (mut before, mut turned) = (0, self.steps);
        if bad(before) || !bad(turned) {
            return None;
        }
        while turned - before > 1 {
            let t = (before + turned) / 2;
            if bad(t) { turned = t } else { before = t }
        }
        Some(turned)
    }
}

// A triangle some steps before it turns bad, or there.
fn turning(r: &mut Random) -> Option<Question> {
    let size = r.pick(&[200, 2_000, 8_000, 30_000, 60_000]);
    let coords = shaken(r, 6, size, size / 16);
    let p = any_floor(r);
    let (k, by) = (r.range(3, 5) as usize, (r.range(-size, size), r.range(-size, size)));
    let way = Way { coords, k, by, steps: by.0.abs().max(by.1.abs()) + 1 };
    let turned = way.turn(p as u8)?;
    // most of those that turn at a corner are left out: such a triangle is settled at level 0
    if falls(p as u8, &way.at(turned), 0) && r.range(0, 7) > 0 {
        return None;
    }
    let back = r.pick(&[0, 0, 0, 1, 1, 2, 2, 3, 4, 6, 10, 20, 60]);
    Some(question(r, p, way.at((turned - back).max(0)).coords))
}

// ---- a floor that is met exactly

// A triangle whose J on the edge 01 is S times 1 - (x/2k)·u + (y/k)·(u² - 1/8), where u = ξ - 1/2, and nowhere less.
fn bowed(k: i64, x: i64, y: i64) -> Vec<(i64, i64)> {
    vec![(-8 * k, -8 * k), (8 * k, -8 * k), (0, 8 * k), (x, y - 8 * k), (8 * k, 0), (-8 * k, 0)]
}

fn gcd(a: i64, b: i64) -> i64 {
    if b == 0 { a } else { gcd(b, a % b) }
}

// The least k, x, y for which the least J on that edge is p percent of S, at u = a/2^d.
fn met(p: i64, d: u32, a: i64) -> (i64, i64, i64) {
    // least at u = x/4y, and there 1 - (y/k)·(1/8 + u²)
    let w = 1 << d;
    let (y, k) = (8 * w * w * (100 - p), 100 * (w * w + 8 * a * a));
    let g = gcd(y, k);
    let (y, k) = (y / g, k / g);
    let t = w / gcd(w, 4 * y);
    (t * k, 4 * a * t * y / w, t * y)
}

// The same for a value off the corners of a cell: of the edge, or of its left half. There it is harmless.
fn harmless(p: i64, half: bool) -> (i64, i64, i64) {
    if half { (25, p - 100, 100 - p) } else { (75, 0, 2 * (100 - p)) }
}

// A triangle whose least J on that edge is about p percent of S, anywhere on the edge.
fn nearly(r: &mut Random) -> Option<Question> {
    let p = any_floor(r);
    let (k, w) = (r.pick(&[100, 500, 2_000, 8_192]) - r.range(0, 9), 4_096);
    let a = r.range(-w / 2, w / 2);
    let y = 8 * w * w * (100 - p) * k / (100 * (w * w + 8 * a * a)) + r.pick(&[1, 1, 0, 0, -1, -1, -2, -4, -9, -30]);
    let coords = placed(r, &bowed(k, 4 * a * y / w, y))?;
    Some(question(r, p, coords))
}

// The triangle sheared by whole numbers, which alters no ratio, its numbering turned; unless a coordinate is beyond the limit.
fn placed(r: &mut Random, points: &[(i64, i64)]) -> Option<Vec<i64>> {
    let (s, t) = (r.pick(&[0, 0, 0, 1, -1]), r.pick(&[0, 0, 0, 1, -1]));
    let turn = r.pick(&[[0, 1, 2, 3, 4, 5], [1, 2, 0, 4, 5, 3], [2, 0, 1, 5, 3, 4]]);
    let sheared = turn.iter().map(|&k| {
        let (x, y) = points[k];
        (x + s * y, y + t * (x + s * y))
    });
    let coords: Vec<i64> = sheared.flat_map(|(x, y)| [x, y]).collect();
    let most = coordinate_limit(6);
    if coords.iter().any(|x| x.abs() > most) {
        return None;
    }
    Some(coords)
}

// A floor that is met exactly, or nearly.
fn exactly(r: &mut Random) -> Option<Question> {
    let p = any_floor(r);
    let d = r.range(1, 8) as u32;
    let half = 1i64 << (d - 1);
    let a = if d == 1 { r.range(-1, 1) } else { 2 * r.range(-half / 2, half / 2 - 1) + 1 };
    let (k, x, y) = match r.range(0, 5) {
        0 => harmless(p, false),
        1 => harmless(p, true),
        _ => met(p, d, a),
    };
    let scale = r.range(1, (8_192 / k).clamp(1, 40));
    let off = r.pick(&[0, 0, 0, 1, -1, -2, -5]);
    let coords = placed(r, &bowed(scale * k, scale * x, scale * y + off))?;
    Some(question(r, p, coords))
}

// ---- large and refused

// Coordinates at the limits, their numbering such that the corners turn to the left, if they turn.
fn outermost(r: &mut Random) -> Option<Question> {
    let most = coordinate_limit(6);
    let coords = uncollapsed(r, 6, |r| (0..12).map(|_| r.pick(&[most, most, -most, -most, 0, most - 1, 1])).collect());
    let p = any_floor(r);
    let q = question(r, p, coords);
    Some(if floor_code(q.p, &q.element) == 17 { mirrored(q) } else { q })
}

// The same triangle numbered the other way round: A0 A2 A1 M02 M12 M01.
fn mirrored(mut q: Question) -> Question {
    let c = q.element.coords;
    q.element.coords = [0, 2, 1, 5, 4, 3].iter().flat_map(|&k| [c[2 * k], c[2 * k + 1]]).collect();
    q
}

// The codes of the faults of a call, in the order in which they count; 21 stands between 4 and 16.
const FAULTS: [u8; 6] = [1, 2, 3, 4, 16, 17];

// Those of them whose bits are set in n.
fn chosen(n: usize) -> Vec<u8> {
    (0..FAULTS.len()).filter(|k| n >> k & 1 == 1).map(|k| FAULTS[k]).collect()
}

// A call with these faults.
fn faulty(r: &mut Random, faults: &[u8]) -> Question {
    let has = |fault: u8| faults.contains(&fault);
    let (size, noise) = r.pick(&[(40, 4), (200, 20), (30_000, 3_000)]);
    let coords = shaken(r, 6, size, noise);
    let p = any_floor(r);
    let mut q = question(r, p, coords);
    if has(17) {
        q = if r.range(0, 3) > 0 { mirrored(q) } else { flat(q) };
    }
    if has(16) {
        q.p = r.pick(&[0, 0, 100, 100, 101, 128, 200, 255, 255]);
    }
    let e = &mut q.element;
    if has(21) {
        collapse(r, 6, &mut e.coords);
    }
    if has(4) {
        let far = coordinate_limit(6) + r.pick(&[1, 1, 2, 100, 65_536]);
        let at = r.range(0, 11) as usize;
        e.coords[at] = r.pick(&[far, far, -far, -far, i32::MAX as i64, i32::MIN as i64]);
    }
    if has(3) {
        let length = r.pick(&[0, 1, 2, 6, 10, 11, 13, 14, 16, 18, 24]);
        e.coords.resize(length, 1);
    }
    if has(2) {
        e.limit = r.pick(&[8, 8, 9, 10, 11, 255]);
    }
    if has(1) {
        e.kind = r.pick(&[8, 8, 9, 9, 10, 0, 5, 7, 12, 255]);
    }
    q
}

// The triangle with its three corners on a line: S is 0.
fn flat(mut q: Question) -> Question {
    let c = &mut q.element.coords;
    for k in 0..2 {
        c[4 + k] = 2 * c[k] - c[2 + k];
    }
    q
}

// `count` questions, of those that `make` may give.
fn some(r: &mut Random, count: usize, make: impl Fn(&mut Random) -> Option<Question>) -> Vec<Question> {
    std::iter::repeat_with(|| make(r)).flatten().take(count).collect()
}

pub fn questions() -> Vec<Question> {
    let r = &mut Random(20_261_116);
    let mut out = some(r, 900, curved);
    out.extend(some(r, 500, random));
    out.extend(some(r, 1_200, turning));
    out.extend(some(r, 1_100, exactly));
    out.extend(some(r, 1_100, nearly));
    out.extend(some(r, 240, outermost));
    for n in 0..900 {
        out.push(faulty(r, &chosen(n)));
    }
    // quads are refused, however good
    for _ in 0..60 {
        let kind = r.pick(&[8, 9]);
        let coords = shaken(r, kind, 40, 3);
        let q = question(r, 50, coords);
        out.push(Question { element: Element { kind, ..q.element }, ..q });
    }
    out
}

// Triangles with two corners at one place, with each choice of the other faults, and again with those alone that count behind it.
pub fn collapsed_questions() -> Vec<Question> {
    let r = &mut Random(20_261_123);
    let choices = (0..64).chain((0..64).map(|n| n & 0b11_0000));
    choices.map(|n| faulty(r, &[&[21], &chosen(n)[..]].concat())).collect()
}

// ---- blocks

// The elements of which blocks are made: triangles of these questions, some with limits that the floor refuses, and quads.
fn stock(r: &mut Random, from: &[Question]) -> Vec<Element> {
    let mut out: Vec<Element> = from.iter().map(|q| q.element.clone()).filter(|e| e.kind == 6).collect();
    for e in out.iter_mut().step_by(7) {
        e.limit = r.range(0, 10) as u8;
    }
    out.extend(elements().into_iter().filter(|e| e.kind != 6).take(from.len() / 5));
    out
}

// Blocks, each with its floor.
pub fn blocks(from: &[Question]) -> Vec<(u8, Vec<u8>)> {
    let r = &mut Random(20_261_117);
    let from = stock(r, from);
    let mut out = Vec::new();
    for size in [0, 1, 2, 3, 5, 8, 13] {
        for p in [50, 1, 25, 99, r.pick(&[0, 100, 255])] {
            out.push((p, block_bytes(&records(r, &from, size, is_near))));
        }
        for _ in 0..4 {
            let b = block_bytes(&records(r, &from, size, is_near));
            out.push((r.pick(&[0, 10, 50, 50, 75, 100, 255]), damaged(r, &b)));
        }
    }
    out.push((50, block_bytes(&records(r, &from, 800, is_near))));
    out
}
