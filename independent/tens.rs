// Ten-node triangles, in the three calls that take them and in those that do not, from a fixed seed.
//   shape       the nodes of an element, each as it lies from the first node
//   origin      where the first node lies
//   far         with coordinates beyond the limit, and within it from the first node
//   sort        the word and the level of a verdict, and whether its value is zero

use crate::answers::{answer, words};
use crate::block::{assembled, hex, record_bytes, signature, Record};
use crate::element::{corners, judged_code, Element, Num};
use crate::fars::{self, append_line, buffer, far_out, mirrored, placed, rotated, text_line, with, written};
use crate::fars::{Shape, GREATEST, LEAST, NEXT, WRAPPED};
use crate::sets::{self, Random};
use crate::sheet::HEADER;
use crate::sheets::{asked, check_line, sheet_line};
use crate::ten::places;
use crate::texts::{self, once_in, stored_records};
use crate::verdict::Judged;

const TEN: u8 = 10;
const MOST: i64 = 1_024;
const DEEPEST: u8 = 5;

// ---- shapes

// The nodes of a straight triangle, in thirds of its sides: of i along ξ, and of j along η.
const THIRDS: [[i64; 2]; 10] = [[0, 0], [3, 0], [0, 3], [1, 0], [2, 0], [2, 1], [1, 2], [0, 2], [0, 1], [1, 1]];

// The nodes numbered from the next corner, and numbered the other way round.
const TURNED: [usize; 10] = [1, 2, 0, 5, 6, 7, 8, 3, 4, 9];
const MIRRORED: [usize; 10] = [0, 2, 1, 8, 7, 6, 5, 4, 3, 9];

// Orders that are not ours: the third edge from the first corner, the second nodes of all edges behind the first ones, and by rows.
const OTHERS: [[usize; 10]; 3] = [[0, 1, 2, 3, 4, 5, 6, 8, 7, 9], [0, 1, 2, 3, 5, 7, 4, 6, 8, 9], [0, 3, 4, 1, 8, 9, 5, 7, 6, 2]];

fn numbered(s: &[[i64; 2]], order: &[usize; 10]) -> Shape {
    order.iter().map(|&k| s[k]).collect()
}

// The nodes as they lie from the first one.
fn from_first(nodes: &[[i64; 2]]) -> Shape {
    nodes.iter().map(|p| [p[0] - nodes[0][0], p[1] - nodes[0][1]]).collect()
}

fn straight(third: i64) -> Shape {
    THIRDS.iter().map(|[i, j]| [i * third, j * third]).collect()
}

// A straight triangle sheared by at most a ninth of its sides, its nodes moved by at most `noise`.
fn shaken(r: &mut Random, third: i64, noise: i64) -> Shape {
    let (a, b) = (r.range(-third, third) / 3, r.range(-third, third) / 3);
    let mut moved = |x: i64| x + r.range(-noise, noise);
    let nodes: Shape = THIRDS.iter().map(|[i, j]| [moved(i * third + j * a), moved(j * third + i * b)]).collect();
    from_first(&nodes)
}

// A straight triangle with some nodes that are no corners moved along an axis.
fn dented(r: &mut Random) -> Shape {
    let third = r.range(1, 9);
    let mut out = straight(third);
    for _ in 0..r.range(1, 4) {
        out[r.range(3, 9) as usize][r.pick(&[0, 1])] += r.range(-third, third);
    }
    out
}

// A shape whose nodes all lie near a line.
fn flattened(r: &mut Random) -> Shape {
    let (a, b, s) = (r.range(-3, 3), r.range(-3, 3), shaken(r, 60, 6));
    let nodes: Shape = s.iter().map(|[x, y]| [*x, (x * a + y * b) / 8 + r.range(-1, 1)]).collect();
    from_first(&nodes)
}

// A shape of any size, with no node beyond the limit.
fn any_shape(r: &mut Random) -> Shape {
    let third = r.pick(&[2, 8, 40, 150, 200]);
    let noise = r.range(0, third / 2);
    shaken(r, third, noise)
}

// ---- elements

fn under(e: &Element, limit: u8) -> Element {
    Element { limit, ..e.clone() }
}

// The element of that shape with its first node at the origin, under the greatest limit.
fn at_zero(s: &[[i64; 2]]) -> Element {
    under(&placed(TEN, s, [0, 0]), DEEPEST)
}

// The nodes of an element.
fn nodes(e: &Element) -> Shape {
    e.coords.chunks(2).map(|p| [p[0], p[1]]).collect()
}

// The first element that has that code, of those that `make` gives.
fn first_with(r: &mut Random, expected: u8, make: impl Fn(&mut Random) -> Element) -> Element {
    std::iter::repeat_with(|| make(r)).find(|e| judged_code(e, true) == expected).expect("one with that code")
}

// An element that is accepted, near or far, under any limit.
fn any_element(r: &mut Random) -> Element {
    first_with(r, 0, |r| {
        let (s, times) = (any_shape(r), r.range(0, 3) as usize);
        let origin = if once_in(r, 2) { far_out(r) } else { [0, 0] };
        under(&placed(TEN, &rotated(&s, times), origin), r.range(0, DEEPEST as i64) as u8)
    })
}

fn is_valid(e: &Element) -> bool {
    judged_code(e, true) == 0 && e.verdict().word == "valid"
}

// A valid element that is so no more when a node goes a step further; or that step further, or a few.
fn turning(r: &mut Random) -> Element {
    let third = r.pick(&[8, 40, 200]);
    let start = shaken(r, third, third / 8);
    let (k, by) = (r.range(0, 9) as usize, [r.range(-third, third), r.range(-third, third)]);
    let steps = by[0].abs().max(by[1].abs()) + 1;
    let at = |t: i64| {
        let mut s = start.clone();
        s[k] = [s[k][0] + by[0] * t / steps, s[k][1] + by[1] * t / steps];
        at_zero(&from_first(&s))
    };
    let (mut good, mut bad) = (0, steps);
    while bad - good > 1 {
        let t = (good + bad) / 2;
        if is_valid(&at(t)) { good = t } else { bad = t }
    }
    at(good + r.pick(&[0, 0, 1, 1, 2, 3]))
}

// x at the thirds of ξ where it is a multiple of (ξ - a)³, less what it is at 0: for a = 0, 1/2, 1/4, 1/8, 3/8 and 7/16, and for 1/3, 1/5
// and 2/5, which are on no grid.
const CUBES: [[i64; 4]; 9] = [
    [0, 1, 8, 27], [0, 13, 14, 27], [0, 28, 152, 756], [0, 19, 278, 1161], [0, 91, 134, 513], [0, 571, 662, 1809],
    [0, 1, 2, 9], [0, 7, 74, 351], [0, 43, 56, 189],
];

// An element with such an x and with y a multiple of η, so that J is zero on a line across it and above zero elsewhere; or with a node one
// step from there.
fn valley(r: &mut Random) -> Element {
    let (x, y) = (r.pick(&CUBES), r.range(1, 200));
    let scale = r.range(1, (2 * MOST / x[3]).min(9));
    let mut s: Shape = THIRDS.iter().map(|&[i, j]| [scale * (x[i as usize] - x[3] / 2), y * j]).collect();
    if once_in(r, 2) {
        s[r.range(0, 9) as usize][r.pick(&[0, 1])] += r.pick(&[1, -1]);
    }
    for _ in 0..r.range(0, 2) {
        s = numbered(&s, &TURNED);
    }
    at_zero(&s)
}

// An element made in one of these ways, which come by turns.
fn drawn(r: &mut Random, turn: usize) -> Element {
    let s = match turn % 12 {
        0 => shaken(r, 3, 1),
        1 => shaken(r, 4, 1),
        2 => shaken(r, 8, 2),
        3 => shaken(r, 40, 5),
        4 => shaken(r, 40, 12),
        5 => shaken(r, 200, 50),
        6 => dented(r),
        7 => flattened(r),
        8 => return valley(r),
        _ => return turning(r),
    };
    at_zero(&s)
}

// ---- lines for the program `calls`

fn verdict_line(e: &Element) -> String {
    format!("verdict {} {}{}", e.kind, e.limit, words(&e.coords))
}

// The three calls on an element, that for control values with so much room.
fn three_lines(room: u64, e: &Element) -> [String; 3] {
    let xs = words(&e.coords);
    [verdict_line(e), format!("bounds {}{}", e.kind, xs), format!("control {} {}{}", room, e.kind, xs)]
}

// These calls on an element with that code.
fn ask_all(r: &mut Random, expected: u8, e: &Element, out: &mut Vec<String>) {
    assert!(judged_code(e, true) == expected, "{:?}", e.coords);
    out.extend(three_lines(r.pick(&[15, 15, 16, 64]), e));
}

// One of them.
fn ask_one(r: &mut Random, expected: u8, e: &Element, out: &mut Vec<String>) {
    let mut lines = Vec::new();
    ask_all(r, expected, e, &mut lines);
    out.push(lines.swap_remove(r.range(0, 2) as usize));
}

// ---- every sort

type Sort = (&'static str, u32, bool);

// How many elements there are of each sort, under the greatest limit.
const SORTS: [(Sort, usize); 18] = [
    (("valid", 0, true), 25), (("valid", 1, true), 30), (("valid", 2, true), 25), (("valid", 3, true), 12), (("valid", 4, true), 8),
    (("valid", 5, true), 3),
    (("invalid", 0, true), 20), (("invalid", 1, true), 12), (("invalid", 2, true), 12), (("invalid", 3, true), 10),
    (("invalid", 4, true), 5),
    (("invalid", 0, false), 30), (("invalid", 1, false), 30), (("invalid", 2, false), 20), (("invalid", 3, false), 14),
    (("invalid", 4, false), 8), (("invalid", 5, false), 4),
    (("undecided", 5, true), 16),
];

// The elements, sort by sort.
fn of_every_sort(r: &mut Random) -> Vec<Vec<Element>> {
    let (mut out, mut turn) = (vec![Vec::new(); SORTS.len()], 0);
    while SORTS.iter().zip(&out).any(|((_, count), found)| found.len() < *count) {
        let e = drawn(r, turn);
        turn += 1;
        if judged_code(&e, true) != 0 {
            continue;
        }
        let v = e.verdict();
        let at = SORTS.iter().position(|(sort, _)| *sort == (v.word, v.level, v.value == 0));
        if let Some(k) = at.filter(|&k| out[k].len() < SORTS[k].1) {
            out[k].push(e);
        }
    }
    out
}

// Whether the control values give J at every grid point of level 3: more points than there are values.
fn gives_j(e: &Element) -> bool {
    let power = |x: u64, n: usize| (x as Num).pow(n as u32);
    let factorial = |n: usize| (1..=n as Num).product::<Num>();
    let term = |p: u64, q: u64, r: u64, [i, j, k]: [usize; 3]| {
        24 / (factorial(i) * factorial(j) * factorial(k)) * power(p, i) * power(q, j) * power(r, k)
    };
    let values = e.control_values();
    let sum = |p, q, r| places().zip(&values).map(|(place, v)| v * term(p, q, r, place)).sum::<Num>();
    (0..=8).all(|j| (0..=8 - j).all(|i| sum(8 - i - j, i, j) == e.grid_value(3, i, j)))
}

// The verdict under the level that settles it, the one before and any other, and another call; where nothing settles it, under all limits.
fn judged(r: &mut Random, e: &Element, out: &mut Vec<String>) {
    assert!(gives_j(e));
    let v = e.verdict();
    let limits: Vec<u8> = match (v.word, v.level as u8) {
        ("undecided", _) => (0..=DEEPEST).collect(),
        (_, 0) => vec![0, r.range(1, DEEPEST as i64) as u8],
        (_, level) => vec![level - 1, level, r.range(0, DEEPEST as i64) as u8],
    };
    out.extend(limits.iter().map(|&limit| verdict_line(&under(e, limit))));
    out.push(three_lines(15, e)[r.pick(&[1, 2])].clone());
}

// ---- other orders of the nodes

// Numbered from each other corner, which alters neither word nor level nor cells; and the other way round, which makes what is valid
// invalid at its first corner.
fn turned(r: &mut Random, e: &Element, out: &mut Vec<String>) {
    let (v, once) = (e.verdict(), numbered(&nodes(e), &TURNED));
    for s in [once.clone(), numbered(&once, &TURNED)] {
        let t = at_zero(&s);
        let w = t.verdict();
        assert!((w.word, w.level, w.cells) == (v.word, v.level, v.cells));
        out.push(verdict_line(&t));
    }
    let back = at_zero(&numbered(&nodes(e), &MIRRORED));
    let w = back.verdict();
    assert!(v.word != "valid" || (w.word, w.level, w.i, w.j) == ("invalid", 0, 0, 0) && w.value < 0);
    ask_one(r, 0, &back, out);
}

// Valid elements in orders that are not ours: most of them are invalid then.
fn in_other_orders(e: &Element, out: &mut Vec<String>) {
    for order in OTHERS {
        let other = at_zero(&numbered(&nodes(e), &order));
        out.push(verdict_line(&other));
    }
}

fn every_sort(r: &mut Random, out: &mut Vec<String>) {
    let all = of_every_sort(r);
    all.iter().flatten().for_each(|e| judged(r, e, out));
    all.iter().for_each(|sort| sort.iter().take(3).for_each(|e| turned(r, e, out)));
    all.iter().take(3).for_each(|sort| sort.iter().take(6).for_each(|e| in_other_orders(e, out)));
}

// ---- the limits of coordinates, levels, lengths and room

// Nodes at the limit, near it and at zero.
fn outermost(r: &mut Random) -> Element {
    let coords = (0..20).map(|_| r.pick(&[MOST, -MOST, 0, MOST - 1, 1])).collect();
    Element { kind: TEN, limit: r.range(0, 3) as u8, coords }
}

// Coordinates at the limit; and each of them there, and one beyond it so that neither rule takes it.
fn at_limit(r: &mut Random, out: &mut Vec<String>) {
    for _ in 0..16 {
        let e = first_with(r, 0, outermost);
        ask_all(r, 0, &e, out);
    }
    for k in 0..20 {
        for sign in [1, -1] {
            for (x, expected) in [(MOST, 0), (MOST + 1, 4)] {
                let e = first_with(r, expected, |r| {
                    let mut e = at_zero(&any_shape(r));
                    e.coords[k] = sign * x;
                    e
                });
                ask_one(r, expected, &e, out);
            }
        }
    }
}

// The difference of each node from the first one at the limit and one beyond it, far out.
fn at_distance(r: &mut Random, out: &mut Vec<String>) {
    for k in 1..10 {
        for axis in 0..2 {
            for sign in [1, -1] {
                for (d, expected) in [(MOST, 0), (MOST + 1, 4)] {
                    let e = first_with(r, expected, |r| placed(TEN, &with(&any_shape(r), k, axis, sign * d), far_out(r)));
                    ask_one(r, expected, &e, out);
                }
            }
        }
    }
}

// One axis by each rule: far out with small differences in the one, within the limit in the other, with a node at the limit from the first
// one or beyond it.
fn by_axis(r: &mut Random, out: &mut Vec<String>) {
    for axis in 0..2 {
        for sign in [1, -1] {
            for (d, expected) in [(MOST, 0), (MOST + 1, 4), (2 * MOST, 4)] {
                let e = first_with(r, expected, |r| {
                    let s = mirrored(&shaken(r, 13, 2), axis, sign);
                    let mut origin = [-sign * MOST; 2];
                    origin[1 - axis] = r.pick(&[MOST + 1, -4 * MOST, 2_000_000_000]);
                    placed(TEN, &with(&s, 9, axis, sign * d), origin)
                });
                ask_all(r, expected, &e, out);
            }
        }
    }
}

// Differences of about 2^32 and 2^31, which are small or have another sign in 32 bits: of all nodes but the first, and of one alone.
fn wrapped(r: &mut Random, out: &mut Vec<String>) {
    for (first, others) in WRAPPED {
        for (axis, alone) in [(0, false), (0, true), (1, false), (1, true)] {
            let s = shaken(r, 13, 2);
            let (mut e, node) = (placed(TEN, &s, [r.pick(&[0, 7, 100_000]); 2]), r.range(1, 9) as usize);
            for k in 0..10 {
                let is_there = if alone { k == node } else { k > 0 };
                let place = if is_there { others } else { first };
                e.coords[2 * k + axis] = if place == GREATEST { place - s[k][axis].abs() } else { place + s[k][axis].abs() };
            }
            ask_one(r, 4, &e, out);
        }
    }
}

// The same shape near and far and at the ends of i32, with equal answers.
fn moved(r: &mut Random, out: &mut Vec<String>) {
    for _ in 0..24 {
        let (e, times) = (first_with(r, 0, |r| at_zero(&shape_to_the_right(r))), r.range(0, 3) as usize);
        let (s, limit, n) = (rotated(&nodes(&e), times), r.range(0, DEEPEST as i64) as u8, r.range(0, 2) as usize);
        let end = [[LEAST, LEAST], [GREATEST, LEAST], [GREATEST, GREATEST], [LEAST, GREATEST]][times];
        let line = |origin| three_lines(15, &under(&placed(TEN, &s, origin), limit))[n].clone();
        let lines = [[0, 0], [MOST + 1, 0], far_out(r), end].map(line);
        let told: Vec<String> = lines.iter().map(|line| answer(line)).collect();
        assert!(told.iter().all(|t| *t == told[0]), "{:?}: {:?}", lines, told);
        out.extend(lines);
    }
}

// A shape with no node to the left of the first one, or below it.
fn shape_to_the_right(r: &mut Random) -> Shape {
    any_shape(r).iter().map(|[x, y]| [x.abs(), y.abs()]).collect()
}

fn levels(r: &mut Random, out: &mut Vec<String>) {
    for limit in [4, 5, 6, 7, 10, 11, 255] {
        for _ in 0..2 {
            let e = under(&any_element(r), limit);
            out.push(verdict_line(&e));
        }
    }
}

// Lists of other lengths, and of 20 numbers in other kinds.
fn lengths(r: &mut Random, out: &mut Vec<String>) {
    for length in [0, 1, 2, 6, 10, 12, 16, 18, 19, 20, 21, 22, 30, 40] {
        let mut e = any_element(r);
        e.coords.resize(length, 7);
        ask_all(r, if length == 20 { 0 } else { 3 }, &e, out);
    }
    for (kind, expected) in [(6, 3), (8, 3), (9, 3), (0, 1), (1, 1), (7, 1), (11, 1), (15, 1), (21, 1), (255, 1)] {
        let e = Element { kind, ..under(&any_element(r), 3) };
        ask_all(r, expected, &e, out);
    }
}

fn rooms(r: &mut Random, out: &mut Vec<String>) {
    for room in [0, 1, 5, 6, 10, 13, 14, 15, 16, 17, 32, 64] {
        for _ in 0..2 {
            let e = any_element(r);
            out.push(three_lines(room, &e)[2].clone());
        }
    }
}

// ---- corners at one place

// An element with node b at the place of node a.
fn joined(r: &mut Random, a: usize, b: usize) -> Element {
    let mut e = any_element(r);
    e.coords.copy_within(2 * a..2 * a + 2, 2 * b);
    e
}

// Every two nodes at one place: three pairs are corners.
fn pairs(r: &mut Random, out: &mut Vec<String>) {
    for b in 0..10 {
        for a in 0..b {
            let expected = if corners(TEN).contains(&a) && corners(TEN).contains(&b) { 21 } else { 0 };
            let e = first_with(r, expected, |r| joined(r, a, b));
            if expected == 21 {
                ask_all(r, 21, &e, out);
                let e = first_with(r, 21, |r| joined(r, b, a));
                ask_all(r, 21, &e, out);
            } else {
                ask_one(r, 0, &e, out);
            }
        }
    }
}

// Three corners, all nodes, and all nodes but the corners at one place.
fn more_at_one_place(r: &mut Random, out: &mut Vec<String>) {
    for (at, expected) in [(0..3, 21), (0..10, 21), (3..10, 0), (2..10, 0)] {
        for _ in 0..2 {
            let e = first_with(r, expected, |r| {
                let mut e = any_element(r);
                at.clone().for_each(|k| e.coords.copy_within(2 * at.start..2 * at.start + 2, 2 * k));
                e
            });
            ask_all(r, expected, &e, out);
        }
    }
}

// Places that are taken for this one where an axis, a digit, a sign or the order of x and y is not looked at.
fn mistaken(r: &mut Random, [x, y]: [i64; 2]) -> [[i64; 2]; 8] {
    let bit = 1 << r.range(0, 9);
    [[x, 5], [5, y], [x ^ bit, y], [x, y ^ bit], [-x, y], [x, -y], [-x, -y], [y, x]]
}

// Corners at such places.
fn nearly(r: &mut Random, out: &mut Vec<String>) {
    for (a, b) in [(0, 1), (1, 2), (0, 2)] {
        for n in 0..8 {
            let e = first_with(r, 0, |r| {
                let mut s = rotated(&any_shape(r), r.range(0, 3) as usize);
                let by = [r.range(-100, 100), r.range(-100, 100)];
                s.iter_mut().for_each(|p| *p = [p[0] + by[0], p[1] + by[1]]);
                s[b] = mistaken(r, s[a])[n];
                at_zero(&s)
            });
            ask_one(r, 0, &e, out);
        }
    }
}

// Two corners at one place, and J above zero everywhere.
const COLLAPSED: [i64; 20] =
    [1000, 258, 1000, 258, -170, -1000, 1000, 57, 984, 102, 357, 726, -341, 1000, 173, -1000, 829, -1000, 569, -200];

// That element, which would be valid, and its other numberings; and with these corners a step apart.
fn valid_otherwise(r: &mut Random, out: &mut Vec<String>) {
    let e = Element { kind: TEN, limit: DEEPEST, coords: COLLAPSED.to_vec() };
    assert!(e.verdict().word == "valid");
    let once = numbered(&nodes(&e), &TURNED);
    for s in [nodes(&e), once.clone(), numbered(&once, &TURNED)] {
        ask_all(r, 21, &at_zero(&s), out);
    }
    for limit in 0..DEEPEST {
        out.push(verdict_line(&under(&e, limit)));
    }
    for (k, step) in [(0, 1), (0, -1), (1, 1), (1, -1), (2, 1), (2, -1), (3, 1), (3, -1)] {
        let mut apart = e.clone();
        apart.coords[k] += step;
        ask_all(r, 0, &apart, out);
    }
}

// ---- the order of codes

// An element with these faults: of the limit, the length, the coordinates and the corners.
fn with_faults(r: &mut Random, [limit, length, far, corners]: [bool; 4]) -> Element {
    let mut e = under(&any_element(r), r.range(0, 3) as u8);
    if corners {
        let (from, to) = sets::two_corners(r, TEN);
        e.coords.copy_within(2 * from..2 * from + 2, 2 * to);
    }
    if far {
        e.coords[18 + r.pick(&[0, 1])] += r.pick(&[3, -3]) * MOST;
    }
    if length {
        e.coords.resize(r.pick(&[0, 18, 19, 21, 22]), 0);
    }
    if limit {
        e.limit = r.pick(&[6, 7, 255]);
    }
    e
}

// Every set of faults, with room for the control values and without, for kind 10 and one that there is not.
fn faults(r: &mut Random, out: &mut Vec<String>) {
    for n in 0..16 {
        let which = [3, 2, 1, 0].map(|k| n >> k & 1 == 1);
        let code = [(which[0], 2), (which[1], 3), (which[2], 4), (which[3], 21), (true, 0)].iter().find(|f| f.0).expect("a code").1;
        for room in [14, 15] {
            let e = with_faults(r, which);
            assert!(judged_code(&e, true) == code);
            out.extend(three_lines(room, &e));
        }
        let kind = r.pick(&[0, 5, 7, 11, 100, 255]);
        let e = Element { kind, ..with_faults(r, which) };
        out.extend(three_lines(14, &e));
    }
}

// ---- other calls

// Calls on single elements that do not take kind 10, with faults that count behind it, too: of p, of the sheet, of the id and of the room.
fn single_lines(r: &mut Random, e: &Element, out: &mut Vec<String>) {
    out.push(format!("floor {} {} {}{}", r.pick(&[0, 1, 50, 99, 100]), e.kind, e.limit, words(&e.coords)));
    out.push(sheet_line(r.pick(&[0, 5, 6, 4_096]), e));
    out.push(check_line(r.pick(&[&HEADER[..], b"", b"CPS\x01\x00\x00", b"CPS\x01\x00\x01\x00\x00\x00\x00"]), e));
    let (id, room, xs) = (r.pick(&[NEXT, NEXT, 0]), r.pick(&[80, 80, 79]), written(r, e));
    out.push(append_line(buffer(r, room), id, e));
    out.push(text_line(buffer(r, room), e.kind, e.limit, &xs));
}

// Elements that the verdict takes, the valid ones with their own sheets, and others.
fn in_single_calls(r: &mut Random, out: &mut Vec<String>) {
    for _ in 0..10 {
        let e = any_element(r);
        single_lines(r, &e, out);
        let s = any_shape(r);
        asked(r, &under(&at_zero(&s), 2), out);
    }
    for n in 1..16 {
        let e = with_faults(r, [3, 2, 1, 0].map(|k| n >> k & 1 == 1));
        single_lines(r, &e, out);
    }
    // a list that a record can hold
    let mut e = any_element(r);
    e.coords.truncate(18);
    single_lines(r, &e, out);
}

// A record of kind 10 in a block, between others; it holds the first nine nodes. In version 2 it may be signed.
fn block_with(r: &mut Random, version: u16, e: &Element) -> (Vec<u8>, usize) {
    let before = r.range(0, 2) as usize;
    let mut records: Vec<Vec<u8>> = stored_records(r, before, NEXT - 1).iter().map(record_bytes).collect();
    let id = r.pick(&[NEXT, NEXT, 0]);
    let mut record = record_bytes(&Record { id, element: e.clone() });
    if version == 2 && once_in(r, 2) {
        record[6..8].copy_from_slice(&signature(&e.verdict()).unwrap_or([3, 6]));
    }
    records.push(record);
    records.extend(stored_records(r, 1, NEXT + 9).iter().map(record_bytes));
    (assembled(version, &records), before)
}

// Every call on such blocks, and on those where a fault stands before it.
fn in_blocks(r: &mut Random, out: &mut Vec<String>) {
    for version in [1, 2] {
        for n in 0..6 {
            let mut e = any_element(r);
            e.limit = r.pick(&[e.limit, e.limit, 6, 255]);
            let (mut b, at) = block_with(r, version, &e);
            if n == 5 {
                // the first record has another kind that there is not, or is this one
                b[9 + 4] = 7;
            }
            for call in ["check", "walk", "list", "convert 1", "convert 2"] {
                out.push(format!("{} {}", call, hex(&b)));
            }
            for (call, k) in [("fetch", at), ("fetch", 0), ("fetch", 99), ("sign", at), ("sign", 0)] {
                out.push(format!("{} {} {}", call, hex(&b), k));
            }
            let used = b.len() as u64;
            let held = (b.into_iter().chain([0; 80]).collect(), used);
            out.push(append_line(held, NEXT + 20, &stored_records(r, 1, 0)[0].element));
        }
    }
    // in the ways of other sets
    for call in ["check", "fetch", "walk", "list", "append", "sign", "convert 2", "text"] {
        let e = any_element(r);
        fars::ask(r, call, &e, out);
    }
}

// A Gmsh text: ten nodes and six nodes, with their x and y as they are written, and these rows of elements.
fn mesh_text(xs: &[String], rows: &[String]) -> Vec<u8> {
    let nodes: Vec<String> = xs.chunks(2).enumerate().map(|(k, p)| format!("{} {} {} 0\n", k + 1, p[0], p[1])).collect();
    let nodes = format!("$Nodes\n{}\n{}$EndNodes\n", nodes.len(), nodes.concat());
    let elements = format!("$Elements\n{}\n{}\n$EndElements\n", rows.len(), rows.join("\n"));
    format!("$MeshFormat\n2.2 0 8\n$EndMeshFormat\n{}{}", nodes, elements).into_bytes()
}

const TRIANGLE: &str = "45 9 2 1 1 11 12 13 14 15 16";

// Elements of Gmsh's type 21, which are passed over: as it is, with other tags, with a node that is not listed, with one place at its
// corners and with other numbers of nodes.
const PASSED: [&str; 6] = [
    "41 21 2 1 1 1 2 3 4 5 6 7 8 9 10", "7 21 0 1 2 3 4 5 6 7 8 9 10", "42 21 1 -3 1 2 3 4 5 6 7 8 9 99", "43 21 0 1 1 1 4 5 6 7 8 9 10",
    "44 21 2 1 1 1 2 3 4 5 6", "45 21 0 5",
];

// Rows of type 21 that are not of the form.
const MISFORMED: [&str; 3] = ["41 21 2 1 1 1 2 3 4 5 6 7 8 9 0", "41 21 2 1 1", "0 21 2 1 1 1 2 3 4 5 6 7 8 9 10"];

fn in_meshes(r: &mut Random, out: &mut Vec<String>) {
    let ask = |r: &mut Random, rows: &[&str], spoil: Option<&str>, limit: u8, out: &mut Vec<String>| {
        let (ten, six) = (any_element(r), Element { kind: 6, limit, coords: sets::shaken(r, 6, 40, 5) });
        let mut xs = [written(r, &ten), written(r, &six)].concat();
        if let Some(word) = spoil {
            xs[r.range(0, 19) as usize] = word.to_string();
        }
        let rows: Vec<String> = rows.iter().map(|row| row.to_string()).collect();
        let (buffer, used) = buffer(r, 80);
        out.push(texts::Question { text: mesh_text(&xs, &rows), limit, buffer, used }.line());
    };
    for row in PASSED.iter().chain(&MISFORMED) {
        ask(r, &[row], None, 3, out);
        ask(r, &[row, TRIANGLE], None, 3, out);
        ask(r, &[TRIANGLE, row], None, 5, out);
        ask(r, &[row, TRIANGLE, row], None, 11, out);
    }
    // a node of type 21 alone that is not whole, or lies beyond i32
    for word in ["0.5", "1e3", "x", "4294967296", "-2147483649.0"] {
        ask(r, &[PASSED[0], TRIANGLE], Some(word), 2, out);
        ask(r, &[PASSED[0]], Some(word), 2, out);
    }
}

// Lines of texts with kind 10, alone and behind good ones.
fn in_texts(r: &mut Random, out: &mut Vec<String>) {
    for n in 0..12 {
        let mut e = any_element(r);
        e.limit = r.pick(&[e.limit, 5, 6]);
        e.coords.truncate(r.pick(&[20, 20, 18, 0]));
        let good = &stored_records(r, 1, 0)[0].element;
        let lines = [(NEXT, good), (NEXT + 1, &e)].map(|(id, e)| format!("{} {} {}{}\n", id, e.kind, e.limit, words(&e.coords)));
        let text = if n % 3 == 0 { lines[1].clone() } else { lines.concat() };
        let (buffer, used) = buffer(r, 160);
        out.push(crate::packs::Question { text: text.into_bytes(), buffer, used }.line());
    }
}

pub fn questions() -> Vec<String> {
    let r = &mut Random(20_261_201);
    let mut out = Vec::new();
    every_sort(r, &mut out);
    at_limit(r, &mut out);
    at_distance(r, &mut out);
    by_axis(r, &mut out);
    wrapped(r, &mut out);
    moved(r, &mut out);
    levels(r, &mut out);
    lengths(r, &mut out);
    rooms(r, &mut out);
    pairs(r, &mut out);
    more_at_one_place(r, &mut out);
    nearly(r, &mut out);
    valid_otherwise(r, &mut out);
    faults(r, &mut out);
    in_single_calls(r, &mut out);
    in_blocks(r, &mut out);
    in_meshes(r, &mut out);
    in_texts(r, &mut out);
    out
}
