// Elements far from the origin, at the limits of coordinates and beyond them, and calls on them, from a fixed seed.
//   shape       the nodes of an element, each as it lies from the first node
//   origin      where the first node lies
//   near        with all coordinates within the kind's limit
//   apart       with a difference from the first node that is beyond the kind's limit
//   end         the least or the greatest number of i32

use crate::answers::{answer, words};
use crate::block::{assembled, block_bytes, hex, record_bytes, signature, Record};
use crate::element::{code, coordinate_limit, greatest_level, within_limit, Element, Num};
use crate::mesh::places;
use crate::packs;
use crate::sets::{touching, uncollapsed, Random};
use crate::sheets::{asked, steps};
use crate::texts::{self, coordinate, gmsh_type, once_in, stored_records};
use crate::verdict::Judged;

pub const KINDS: [u8; 3] = [6, 8, 9];

pub const LEAST: i64 = i32::MIN as i64;
pub const GREATEST: i64 = i32::MAX as i64;

// ---- shapes

pub type Shape = Vec<[i64; 2]>;

// A curved shape, no node more than `size` to the right of the first node or above it, and none to its left or below it.
fn shape(r: &mut Random, kind: u8, size: i64) -> Shape {
    let noise = size * r.range(3, 9) / 32;
    let mut at = |half_steps: i64| (half_steps * size / 2 + r.range(-noise, noise)).clamp(0, size);
    let mut out: Shape = steps(kind).iter().map(|&(i, j)| [at(i), at(j)]).collect();
    out[0] = [0, 0];
    out
}

// A shape that is not apart, of any size.
pub fn any_shape(r: &mut Random, kind: u8) -> Shape {
    let most = coordinate_limit(kind);
    let size = r.pick(&[6, 40, 400, most / 2, most, most]);
    shape(r, kind, size)
}

// The shape turned by so many right angles, which alters no J.
pub fn rotated(s: &[[i64; 2]], times: usize) -> Shape {
    let turn = |&[x, y]: &[i64; 2]| [[x, y], [-y, x], [-x, -y], [y, -x]][times];
    s.iter().map(turn).collect()
}

// The corner of a square in which the first node of a shape lies that was turned so often.
fn corner(times: usize, least: i64, greatest: i64) -> [i64; 2] {
    [[least, least], [greatest, least], [greatest, greatest], [least, greatest]][times]
}

// The shape with one difference set.
pub fn with(s: &[[i64; 2]], k: usize, axis: usize, d: i64) -> Shape {
    let mut out = s.to_vec();
    out[k][axis] = d;
    out
}

// Any shape with one difference set, its corners not at one place.
fn reaching(r: &mut Random, kind: u8, k: usize, axis: usize, d: i64) -> Shape {
    let coords = uncollapsed(r, kind, |r| with(&any_shape(r, kind), k, axis, d).concat());
    coords.chunks(2).map(|p| [p[0], p[1]]).collect()
}

// The shape mirrored in one axis, where the sign is below zero.
pub fn mirrored(s: &[[i64; 2]], axis: usize, sign: i64) -> Shape {
    let mut out = s.to_vec();
    out.iter_mut().for_each(|p| p[axis] *= sign);
    out
}

// Any node but the first.
fn other_node(r: &mut Random, kind: u8) -> usize {
    r.range(1, kind as i64 - 1) as usize
}

// A shape that is apart by one.
fn apart_by_one(r: &mut Random, kind: u8) -> Shape {
    let (s, k, axis) = (any_shape(r, kind), other_node(r, kind), r.pick(&[0, 1]));
    with(&s, k, axis, r.pick(&[1, -1]) * (coordinate_limit(kind) + 1))
}

// ---- places

// A number far out, with room for every shape on both sides.
fn far_number(r: &mut Random) -> i64 {
    let size = r.pick(&[70_000, 1_000_000, 16_777_216, 2_000_000_000]);
    r.pick(&[1, -1]) * (size + r.range(0, 65_535))
}

// An origin far out in x, in y or in both.
pub fn far_out(r: &mut Random) -> [i64; 2] {
    let (x, y, inner) = (far_number(r), far_number(r), r.pick(&[0, 7, -1_000, 2_000]));
    r.pick(&[[x, y], [x, y], [x, y], [x, inner], [inner, y]])
}

// The element of that shape at that origin, with the limit 0.
pub fn placed(kind: u8, s: &[[i64; 2]], origin: [i64; 2]) -> Element {
    let coords = s.iter().flat_map(|&[x, y]| [origin[0] + x, origin[1] + y]).collect();
    Element { kind, limit: 0, coords }
}

// The element under a limit that is not slow.
pub fn under_any(r: &mut Random, e: Element) -> Element {
    Element { limit: r.range(0, 3) as u8, ..e }
}

// An element that lies far out and is accepted.
fn far_element(r: &mut Random, kind: u8) -> Element {
    let (s, times) = (any_shape(r, kind), r.range(0, 3) as usize);
    let e = placed(kind, &rotated(&s, times), far_out(r));
    under_any(r, e)
}

// ---- lines for the program `calls`

// The id of what is appended; those of the records before it are lower.
pub const NEXT: u32 = 41;

// A block for that call with the element in it, and which record it is.
fn block_for(r: &mut Random, call: &str, e: &Element) -> (Vec<u8>, usize) {
    let before = r.range(0, 2) as usize;
    let mut records = stored_records(r, before, NEXT - 1);
    records.push(Record { id: NEXT, element: e.clone() });
    if once_in(r, 3) {
        records.extend(stored_records(r, 1, NEXT + 9));
    }
    let records: Vec<Vec<u8>> = records.iter().map(record_bytes).collect();
    let version = match call {
        "sign" => 2,
        "convert 2" => 1,
        _ => r.pick(&[1, 2]),
    };
    (assembled(version, &records), before)
}

// A block with so much room behind it, and how many bytes of it are used.
pub fn buffer(r: &mut Random, room: usize) -> (Vec<u8>, u64) {
    let held = r.pick(&[0, 0, 1]);
    let mut out = block_bytes(&stored_records(r, held, NEXT - 1));
    let used = out.len() as u64;
    out.extend((0..room).map(|_| r.next() as u8));
    (out, used)
}

pub fn append_line((buffer, used): (Vec<u8>, u64), id: u32, e: &Element) -> String {
    format!("append {} {} {} {} {} {}{}", hex(&buffer), used, id, e.kind, e.limit, e.coords.len(), words(&e.coords))
}

// A Gmsh text with one element, whose coordinates are written already.
fn mesh_text(kind: u8, xs: &[String]) -> Vec<u8> {
    let (mut rows, mut numbers) = (String::new(), vec![0; kind as usize]);
    for (k, &place) in places(kind).iter().enumerate() {
        rows += &format!("{} {} {} 0\n", k + 1, xs[2 * k], xs[2 * k + 1]);
        numbers[place] = k + 1;
    }
    let nodes = format!("$Nodes\n{}\n{}$EndNodes\n", kind, rows);
    let elements = format!("$Elements\n1\n{} {} 0{}\n$EndElements\n", NEXT, gmsh_type(kind), words(&numbers));
    format!("$MeshFormat\n2.2 0 8\n$EndMeshFormat\n{}{}", nodes, elements).into_bytes()
}

pub fn mesh_line((buffer, used): (Vec<u8>, u64), kind: u8, limit: u8, xs: &[String]) -> String {
    texts::Question { text: mesh_text(kind, xs), limit, buffer, used }.line()
}

pub fn text_line((buffer, used): (Vec<u8>, u64), kind: u8, limit: u8, xs: &[String]) -> String {
    let text = format!("{} {} {} {}\n", NEXT, kind, limit, xs.join(" ")).into_bytes();
    packs::Question { text, buffer, used }.line()
}

pub fn written(r: &mut Random, e: &Element) -> Vec<String> {
    e.coords.iter().map(|&x| coordinate(r, x as Num)).collect()
}

pub const CALLS: [&str; 14] = [
    "control", "bounds", "verdict", "floor", "sheet", "check", "fetch", "walk", "list", "append", "sign", "convert 2", "mesh", "text",
];

// A call on the element. That for a sheet is asked together with its check; a floor is asked of triangles.
pub fn ask(r: &mut Random, call: &str, e: &Element, out: &mut Vec<String>) {
    let xs = words(&e.coords);
    match call {
        "control" => out.push(format!("control {} {}{}", r.pick(&[16, 16, 64, 5]), e.kind, xs)),
        "bounds" => out.push(format!("bounds {}{}", e.kind, xs)),
        "floor" if e.kind == 6 => out.push(format!("floor {} {} {}{}", r.pick(&[1, 25, 50, 75, 99]), e.kind, e.limit, xs)),
        "verdict" | "floor" => out.push(format!("verdict {} {}{}", e.kind, e.limit, xs)),
        "sheet" => asked(r, e, out),
        "append" => out.push(append_line(buffer(r, 80), NEXT, e)),
        "mesh" => out.push(mesh_line(buffer(r, 80), e.kind, e.limit, &written(r, e))),
        "text" => out.push(text_line(buffer(r, 80), e.kind, e.limit, &written(r, e))),
        "fetch" | "sign" => {
            let (block, k) = block_for(r, call, e);
            out.push(format!("{} {} {}", call, hex(&block), k));
        }
        _ => out.push(format!("{} {}", call, hex(&block_for(r, call, e).0))),
    }
}

// So many different calls on an element that is accepted, or refused with 4.
fn ask_some(r: &mut Random, count: usize, is_good: bool, e: Element, out: &mut Vec<String>) {
    assert!(code(&e) == if is_good { 0 } else { 4 }, "{} {:?}", e.kind, e.coords);
    let e = under_any(r, e);
    let first = r.range(0, CALLS.len() as i64 - 1) as usize;
    for k in 0..count {
        ask(r, CALLS[(first + 5 * k) % CALLS.len()], &e, out);
    }
}

// ---- the two limits

// The first node at an end in x, in y or in both, and all others on the inner side.
fn at_ends(r: &mut Random, out: &mut Vec<String>) {
    for kind in KINDS {
        for times in 0..4 {
            let ([x, y], inner) = (corner(times, LEAST, GREATEST), far_out(r));
            for origin in [[x, y], [x, inner[1]], [inner[0], y]] {
                let s = rotated(&any_shape(r, kind), times);
                ask_some(r, 2, true, placed(kind, &s, origin), out);
            }
        }
    }
}

// One difference at the limit or one beyond it: of each node but the first, in x and in y, above zero and below.
fn at_limit(r: &mut Random, out: &mut Vec<String>) {
    for kind in KINDS {
        let most = coordinate_limit(kind);
        for k in 1..kind as usize {
            for d in [most, -most, most + 1, -most - 1] {
                for axis in 0..2 {
                    let (e, is_good) = (placed(kind, &reaching(r, kind, k, axis, d), far_out(r)), d.abs() == most);
                    ask_some(r, if is_good { 2 } else { 1 }, is_good, e, out);
                }
            }
        }
    }
}

// One axis by each rule. One lies far out and has small differences; in the other one all lies within the limit, and a node is at the limit
// from the first one, where all differences are small, or beyond it.
fn by_axis(r: &mut Random, out: &mut Vec<String>) {
    for kind in KINDS {
        let most = coordinate_limit(kind);
        for (axis, sign) in [(0, 1), (0, -1), (1, 1), (1, -1)] {
            for d in [most, most + 1, 2 * most] {
                let s = mirrored(&shape(r, kind, 40), axis, sign);
                let s = with(&s, other_node(r, kind), axis, sign * d);
                let mut origin = [-sign * most; 2];
                origin[1 - axis] = [most + 1, -most - 1, far_number(r), far_number(r)][r.range(0, 3) as usize];
                ask_some(r, 2, d == most, placed(kind, &s, origin), out);
            }
        }
    }
}

// Near, and as far apart as can be; and the same one step further out.
fn wide(r: &mut Random, out: &mut Vec<String>) {
    for kind in KINDS {
        let most = coordinate_limit(kind);
        for times in 0..4 {
            let s = rotated(&shape(r, kind, 2 * most), times);
            let origin = corner(times, -most, most);
            let near = placed(kind, &s, origin);
            assert!(within_limit(kind, &near.coords));
            ask_some(r, 2, true, near, out);
            let (mut further, axis) = (origin, r.pick(&[0, 1]));
            further[axis] += origin[axis].signum();
            ask_some(r, 1, false, placed(kind, &s, further), out);
        }
    }
}

const HALF: i64 = 1 << 30;

// Where the first node lies in one axis, and where others do: about 2^32 apart, which is small in 32 bits, and about 2^31, which has
// another sign there.
pub const WRAPPED: [(i64, i64); 6] = [(LEAST, GREATEST), (GREATEST, LEAST), (LEAST, 0), (0, LEAST), (-HALF, HALF), (HALF, -HALF)];

// All nodes but the first so far away, and one alone.
fn wrapped(r: &mut Random, out: &mut Vec<String>) {
    for kind in KINDS {
        for (first, others) in WRAPPED {
            for (axis, alone) in [(0, false), (0, true), (1, false), (1, true)] {
                let (s, node) = (shape(r, kind, 40), other_node(r, kind));
                let mut e = placed(kind, &s, [r.pick(&[0, 7, 100_000]); 2]);
                for k in 0..kind as usize {
                    let is_there = if alone { k == node } else { k > 0 };
                    let place = if is_there { others } else { first };
                    e.coords[2 * k + axis] = if place == GREATEST { place - s[k][axis] } else { place + s[k][axis] };
                }
                ask_some(r, 1, false, e, out);
            }
        }
    }
}

// Small differences from the second node, and not from the first; and the same with these two exchanged.
fn from_second(r: &mut Random, out: &mut Vec<String>) {
    for kind in KINDS {
        let most = coordinate_limit(kind);
        for (axis, sign) in [(0, 1), (0, -1), (1, 1), (1, -1)] {
            let (back, over) = (r.range(most / 2, most), r.pick(&[1, 2, most / 2]));
            let s = mirrored(&shape(r, kind, 40), axis, sign);
            let s = with(&s, 0, axis, -sign * back);
            let mut s = with(&s, r.range(2, kind as i64 - 1) as usize, axis, sign * (most + over - back));
            s[1] = [0, 0];
            let origin = far_out(r);
            ask_some(r, 2, false, placed(kind, &s, origin), out);
            s.swap(0, 1);
            ask_some(r, 2, true, placed(kind, &s, origin), out);
        }
    }
}

// ---- moves

// Calls whose answers say nothing of coordinates.
const UNMOVED: [&str; 7] = ["control", "bounds", "verdict", "floor", "sheet", "list", "check"];

// A call on the shape at each origin, with equal answers.
fn ask_at(r: &mut Random, call: &str, (kind, limit): (u8, u8), s: &[[i64; 2]], origins: &[[i64; 2]], out: &mut Vec<String>) {
    let seed = r.next();
    let mut told: Vec<Vec<String>> = Vec::new();
    for &origin in origins {
        let mut lines = Vec::new();
        ask(&mut Random(seed), call, &Element { limit, ..placed(kind, s, origin) }, &mut lines);
        told.push(lines.iter().map(|line| answer(line)).collect());
        out.extend(lines);
    }
    assert!(told.iter().all(|t| *t == told[0]), "{} of {} {:?}: {:?}", call, kind, s, told);
}

// Triangles that are settled at the levels 6, 6, 7, 7 and 8, as `touching` has them.
const DEEP: [(i64, i64, i64); 5] = [(2032, 33, 1026), (581, 9, 289), (1456, 6, -365), (2256, 8, 544), (1258, 28, 744)];

// An element near the origin, just beyond the limit, far out and at the ends.
fn moved(r: &mut Random, out: &mut Vec<String>) {
    for kind in KINDS {
        for n in 0..6 {
            let times = r.range(0, 3) as usize;
            let s = rotated(&any_shape(r, kind), times);
            let right = s.iter().map(|p| p[0]).max().expect("a shape has nodes");
            let beyond = [coordinate_limit(kind) + 1 - right, 0];
            let origins = [[0, 0], beyond, far_out(r), corner(times, LEAST, GREATEST)];
            let limit = r.range(0, 3) as u8;
            for k in 0..2 {
                ask_at(r, UNMOVED[(2 * n + 3 * k) % UNMOVED.len()], (kind, limit), &s, &origins, out);
            }
        }
    }
    for (k, e, x) in DEEP {
        let c = touching(k, e, x);
        let s: Shape = c.chunks(2).map(|p| [p[0] - c[0], p[1] - c[1]]).collect();
        let origins = [[c[0], c[1]], far_out(r), [LEAST, GREATEST - 16 * k]];
        ask_at(r, "verdict", (6, 10), &s, &origins, out);
    }
}

// ---- records

// Where the unused pairs of a record begin.
fn unused_at(kind: u8) -> usize {
    8 + 8 * kind as usize
}

// Unused pairs of far records: zero, or with a byte, the first node, its x or its y in them; the last in a record that is apart, too.
fn unused(r: &mut Random, out: &mut Vec<String>) {
    for kind in [6, 8] {
        for version in [1, 2] {
            for what in 0..6 {
                let apart = placed(kind, &apart_by_one(r, kind), far_out(r));
                let element = if what < 5 { far_element(r, kind) } else { apart };
                let mut record = record_bytes(&Record { id: NEXT, element });
                let pair = unused_at(kind) + 8 * r.range(0, 8 - kind as i64) as usize;
                match what {
                    0 => {}
                    1 => record[r.range(pair as i64, pair as i64 + 7) as usize] = r.pick(&[1, 128, 255]),
                    2 => record.copy_within(8..16, pair),
                    3 => record.copy_within(8..12, pair),
                    _ => record.copy_within(12..16, pair + 4),
                }
                let block = hex(&assembled(version, &[record]));
                let others = r.pick(&[["walk", "convert 2"], ["list", "convert 1"]]);
                out.push(format!("check {}", block));
                out.push(format!("fetch {} 0", block));
                out.push(format!("{} {}", r.pick(&others), block));
            }
        }
    }
}

// The records of so many far elements of all kinds, the last one with that id; in version 2 those that are settled are signed.
fn far_records(r: &mut Random, version: u16, count: usize, last: u32) -> Vec<Vec<u8>> {
    (0..count)
        .map(|k| {
            let kind = r.pick(&KINDS);
            let element = far_element(r, kind);
            let sign = signature(&element.verdict()).filter(|_| version == 2);
            let mut record = record_bytes(&Record { id: last - (count - 1 - k) as u32, element });
            record[6..8].copy_from_slice(&sign.unwrap_or([0, 0]));
            record
        })
        .collect()
}

// Blocks of far records, every call on them, and the same with a record that is apart, whose id is too low besides.
fn blocks(r: &mut Random, out: &mut Vec<String>) {
    for (version, size) in [(1, 2), (1, 12), (2, 2), (2, 12)] {
        let mut records = far_records(r, version, size, NEXT - 1);
        let b = assembled(version, &records);
        for call in ["check", "walk", "list", "convert 1", "convert 2"] {
            out.push(format!("{} {}", call, hex(&b)));
        }
        for k in [0, size - 1, size] {
            out.push(format!("fetch {} {}", hex(&b), k));
        }
        out.push(format!("sign {} {}", hex(&b), r.range(0, size as i64 - 1)));
        let room = (b.iter().copied().chain([0; 80]).collect(), b.len() as u64);
        out.push(append_line(room, NEXT, &far_element(r, 6)));
        let at = r.range(0, size as i64 - 1) as usize;
        let kind = r.pick(&KINDS);
        let element = placed(kind, &apart_by_one(r, kind), far_out(r));
        records[at] = record_bytes(&Record { id: 0, element });
        let b = assembled(version, &records);
        for call in ["check", "list", "convert 2"] {
            out.push(format!("{} {}", call, hex(&b)));
        }
        out.push(format!("fetch {} {}", hex(&b), size));
    }
}

// A block that is full of far records.
fn full(r: &mut Random, out: &mut Vec<String>) {
    let b = assembled(2, &far_records(r, 2, 800, NEXT + 800));
    out.push(format!("check {}", hex(&b)));
    let used = b.len() as u64;
    out.push(append_line((b, used), u32::MAX, &far_element(r, 9)));
}

// ---- texts

// Whole numbers from which nodes go on by up to 8, away from zero. So the first leads to the greatest number of i32, and the second, below
// zero, to the least; the others lead beyond i32 or lie there, some of them such as are small in 32 bits or in 64.
const FIRSTS: [Num; 8] = [
    (1 << 31) - 9, (1 << 31) - 8, (1 << 31) - 7, 1 << 31, (1 << 32) - 4, (1 << 63) - 4, 1 << 64, 1_000_000_000_000_000_000_000_000_000_000,
];

// The coordinates of a shape, written; those in one axis go on from that number, away from zero.
fn written_from(r: &mut Random, s: &[[i64; 2]], axis: usize, first: Num) -> Vec<String> {
    let (other, sign) = (if once_in(r, 2) { far_number(r) } else { 7 }, first.signum());
    let mut out = Vec::new();
    for p in s {
        let mut at = [other as Num + p[1 - axis] as Num; 2];
        at[axis] = first + sign * p[axis] as Num;
        out.extend([coordinate(r, at[0]), coordinate(r, at[1])]);
    }
    out
}

// Texts whose nodes lie about the ends of i32 and beyond them, with small differences.
fn read(r: &mut Random, out: &mut Vec<String>) {
    for kind in KINDS {
        for first in FIRSTS {
            for sign in [1, -1] {
                let axis = r.pick(&[0, 1]);
                let s = with(&shape(r, kind, 8), other_node(r, kind), axis, 8);
                let xs = written_from(r, &s, axis, sign * first);
                out.push(mesh_line(buffer(r, 80), kind, 2, &xs));
                out.push(text_line(buffer(r, 80), kind, 2, &xs));
            }
        }
    }
}

// A number beyond i32 and what counts before it and behind it: a limit, a length, an id and the room.
fn read_with_faults(r: &mut Random, out: &mut Vec<String>) {
    for kind in KINDS {
        let s = shape(r, kind, 8);
        let (axis, sign) = (r.pick(&[0, 1]), r.pick(&[1, -1]));
        let mut xs = written_from(r, &s, axis, sign * (1 << 31));
        let greatest = greatest_level(kind);
        for limit in [greatest, greatest + 1] {
            for room in [80, 79] {
                out.push(mesh_line(buffer(r, room), kind, limit, &xs));
                out.push(text_line(buffer(r, room), kind, limit, &xs));
            }
        }
        let held = stored_records(r, 1, NEXT);
        let sunk = block_bytes(&held);
        out.push(mesh_line((sunk.clone(), sunk.len() as u64), kind, 0, &xs));
        out.push(text_line((sunk.clone(), sunk.len() as u64), kind, 0, &xs));
        xs.pop();
        out.push(text_line(buffer(r, 80), kind, 0, &xs));
    }
}

// ---- the order of codes

// Elements that are apart and others, with what counts before the coordinates and behind them.
fn with_faults(r: &mut Random, out: &mut Vec<String>) {
    for kind in KINDS {
        for is_good in [true, false] {
            let s = if is_good { any_shape(r, kind) } else { apart_by_one(r, kind) };
            let e = placed(kind, &s, far_out(r));
            for call in ["control", "bounds", "verdict", "append", "text"] {
                let kind = r.pick(&[0, 5, 7, 10, 255]);
                ask(r, call, &Element { kind, ..e.clone() }, out);
            }
            for call in ["verdict", "append", "check", "mesh", "text"] {
                ask(r, call, &Element { limit: greatest_level(kind) + 1, ..e.clone() }, out);
            }
            let short = e.coords[..r.range(1, 2 * kind as i64 - 1) as usize].to_vec();
            for call in ["control", "bounds", "verdict", "append", "text"] {
                ask(r, call, &Element { coords: short.clone(), ..e.clone() }, out);
            }
            let sunk = block_bytes(&stored_records(r, 1, NEXT));
            let used = sunk.len() as u64;
            out.push(append_line(buffer(r, 79), NEXT, &e));
            out.push(append_line((sunk.clone(), used), NEXT, &e));
            out.push(append_line((sunk, used + 1), NEXT, &e));
        }
    }
}

// The triangle's corners on a line, not at one place.
fn on_a_line(mut s: Shape) -> Shape {
    s[1][1] = 0;
    s[2] = [s[2][0].max(1), 0];
    s
}

// Triangles under a floor, with p beyond its range, with corners on a line or turning to the right, and with a limit that a floor refuses.
fn with_floors(r: &mut Random, out: &mut Vec<String>) {
    for is_good in [true, false] {
        for p in [0, 100, 255, 50, 1, 99] {
            let s = if is_good { any_shape(r, 6) } else { with(&any_shape(r, 6), 4, 0, coordinate_limit(6) + 1) };
            let right = mirrored(&s, 1, -1);
            for s in [s.clone(), right, on_a_line(s)] {
                let (e, limit) = (placed(6, &s, far_out(r)), r.pick(&[0, 1, 3, 7, 8]));
                out.push(format!("floor {} {} {}{}", p, e.kind, limit, words(&e.coords)));
            }
        }
    }
}

pub fn questions() -> Vec<String> {
    let r = &mut Random(20_261_122);
    let mut out = Vec::new();
    at_ends(r, &mut out);
    at_limit(r, &mut out);
    by_axis(r, &mut out);
    wide(r, &mut out);
    wrapped(r, &mut out);
    from_second(r, &mut out);
    moved(r, &mut out);
    unused(r, &mut out);
    blocks(r, &mut out);
    full(r, &mut out);
    read(r, &mut out);
    read_with_faults(r, &mut out);
    with_faults(r, &mut out);
    with_floors(r, &mut out);
    out
}
