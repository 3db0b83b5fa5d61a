// Elements with two corners at one place, others that are nearly so, and calls on them, from a fixed seed.
//   pair        two corners of a kind
//   collapsed   with a pair at one place
//   far         with coordinates beyond the kind's limit, and within it from the first node

use crate::answers::words;
use crate::block::{assembled, block_bytes, hex, record_bytes, signature, Record};
use crate::element::{code, coordinate_limit, corners, greatest_level, Element, Num};
use crate::fars::{any_shape, append_line, ask, buffer, far_out, mesh_line, placed, rotated, text_line, under_any, written};
use crate::fars::{Shape, CALLS, GREATEST, KINDS, LEAST, NEXT};
use crate::mesh::places;
use crate::packs;
use crate::sets::Random;
use crate::sheet::HEADER;
use crate::sheets::{check_line, sheet_line};
use crate::texts::{self, coordinate, gmsh_type, once_in, stored_records};
use crate::verdict::Judged;

type Pair = (usize, usize);

// Every pair of a kind.
fn pairs(kind: u8) -> Vec<Pair> {
    let all = corners(kind);
    all.iter().enumerate().flat_map(|(n, &b)| all[..n].iter().map(move |&a| (a, b))).collect()
}

// ---- elements

// The element of that shape near the origin or far, under a limit that is not slow.
fn put(r: &mut Random, kind: u8, s: &[[i64; 2]], is_far: bool) -> Element {
    let most = coordinate_limit(kind);
    let e = if is_far {
        placed(kind, &rotated(s, r.range(0, 3) as usize), far_out(r))
    } else {
        placed(kind, s, [-r.range(0, most), -r.range(0, most)])
    };
    under_any(r, e)
}

// A shape with one of these nodes at the place of the other.
fn joined(r: &mut Random, kind: u8, (a, b): Pair) -> Shape {
    let mut s = any_shape(r, kind);
    let (from, to) = r.pick(&[(a, b), (b, a)]);
    s[to] = s[from];
    s
}

// An element with these two nodes at one place.
fn collapsed(r: &mut Random, kind: u8, pair: Pair, is_far: bool) -> Element {
    let s = joined(r, kind, pair);
    put(r, kind, &s, is_far)
}

// The same with any pair, near or far.
fn any_collapsed(r: &mut Random, kind: u8) -> Element {
    let (pair, is_far) = (r.pick(&pairs(kind)), once_in(r, 2));
    collapsed(r, kind, pair, is_far)
}

// The first element that is accepted, of those that `make` gives.
fn first_accepted(r: &mut Random, make: impl Fn(&mut Random) -> Element) -> Element {
    std::iter::repeat_with(|| make(r)).find(|e| code(e) == 0).expect("one that is accepted")
}

// That call on an element with that code.
fn ask_with(r: &mut Random, expected: u8, call: &str, e: &Element, out: &mut Vec<String>) {
    assert!(code(e) == expected, "{} {:?}", e.kind, e.coords);
    ask(r, call, e, out);
}

// ---- nodes at one place

// The calls on an element of a kind: a floor is asked of triangles.
fn calls(kind: u8) -> impl Iterator<Item = &'static str> {
    CALLS.iter().copied().filter(move |&call| kind == 6 || call != "floor")
}

// Every pair, near and far, in every call.
fn every_pair(r: &mut Random, out: &mut Vec<String>) {
    for kind in KINDS {
        for pair in pairs(kind) {
            for is_far in [false, true] {
                for call in calls(kind) {
                    let e = collapsed(r, kind, pair, is_far);
                    ask_with(r, 21, call, &e, out);
                }
            }
        }
    }
}

// More corners at one place: three, all, and two pairs at two places.
fn more_corners(r: &mut Random, out: &mut Vec<String>) {
    for kind in KINDS {
        let all = corners(kind);
        for n in 0..1 << all.len() {
            let (ins, outs): (Vec<usize>, Vec<usize>) = (0..all.len()).partition(|k| n >> k & 1 == 1);
            if ins.len() < 2 || ins.len() == 2 && outs.len() < 2 {
                continue;
            }
            let mut s = any_shape(r, kind);
            for group in [ins, outs] {
                // one that is left alone stays where it is
                group.iter().for_each(|&k| s[all[k]] = s[all[group[0]]]);
            }
            let (is_far, call) = (once_in(r, 2), r.pick(&CALLS));
            let e = put(r, kind, &s, is_far);
            ask_with(r, 21, call, &e, out);
        }
    }
}

// All nodes at one place, in every call.
fn all_nodes(r: &mut Random, out: &mut Vec<String>) {
    for kind in KINDS {
        let most = coordinate_limit(kind);
        for (n, call) in calls(kind).enumerate() {
            let origin = [[0, 0], [7, -7], [most, -most], [most + 1, 0], [GREATEST, LEAST], far_out(r)][n % 6];
            let e = placed(kind, &vec![[0, 0]; kind as usize], origin);
            let e = under_any(r, e);
            ask_with(r, 21, call, &e, out);
        }
    }
}

// Every two nodes at one place that are not both corners.
fn other_nodes(r: &mut Random, out: &mut Vec<String>) {
    for kind in KINDS {
        let is_corner = |k: usize| corners(kind).contains(&k);
        for b in 0..kind as usize {
            for a in (0..b).filter(|&a| !is_corner(a) || !is_corner(b)) {
                let (is_far, call) = (once_in(r, 2), r.pick(&CALLS));
                let e = first_accepted(r, |r| collapsed(r, kind, (a, b), is_far));
                ask_with(r, 0, call, &e, out);
            }
        }
    }
}

// ---- places that differ

// Every pair with equal x, and with equal y.
fn one_axis(r: &mut Random, out: &mut Vec<String>) {
    for kind in KINDS {
        for (a, b) in pairs(kind) {
            for axis in 0..2 {
                let (is_far, call) = (once_in(r, 2), r.pick(&CALLS));
                let e = first_accepted(r, |r| {
                    let mut s = any_shape(r, kind);
                    s[b][axis] = s[a][axis];
                    put(r, kind, &s, is_far)
                });
                ask_with(r, 0, call, &e, out);
            }
        }
    }
}

// Places that are taken for this one where a digit, a sign or the order of x and y is not looked at.
fn mistaken(r: &mut Random, kind: u8, [x, y]: [i64; 2]) -> [[i64; 2]; 6] {
    let bit = if kind == 6 { 1 << r.range(0, 16) } else { 1 << r.range(0, 11) };
    [[x ^ bit, y], [x, y ^ bit], [-x, y], [x, -y], [-x, -y], [y, x]]
}

// Every pair at such places.
fn nearly(r: &mut Random, out: &mut Vec<String>) {
    for kind in KINDS {
        for (a, b) in pairs(kind) {
            for n in 0..6 {
                let e = first_accepted(r, |r| {
                    let s = any_shape(r, kind);
                    let mut e = put(r, kind, &s, false);
                    let place = [e.coords[2 * a], e.coords[2 * a + 1]];
                    e.coords[2 * b..2 * b + 2].copy_from_slice(&mistaken(r, kind, place)[n]);
                    e
                });
                let call = r.pick(&CALLS);
                ask_with(r, 0, call, &e, out);
            }
        }
    }
}

// ---- other faults of an element

// The element with a fault of that code, which counts before 21: 1, 2, 3 or 4.
fn with_fault(r: &mut Random, e: &Element, fault: u8) -> Element {
    let (mut e, greatest, length) = (e.clone(), greatest_level(e.kind), e.coords.len());
    match fault {
        1 => e.kind = r.pick(&[0, 5, 7, 10, 255]),
        2 => e.limit = r.pick(&[greatest + 1, greatest + 1, 255]),
        3 => e.coords.resize(r.pick(&[0, length - 2, length - 1, length + 1, length + 2]), 0),
        _ => {
            // a middle node, so far from the first node that it lies beyond the limit itself, too
            let (k, axis) = (if e.kind == 6 { 3 } else { 1 }, r.pick(&[0, 1]));
            e.coords[2 * k + axis] = e.coords[axis] + r.pick(&[3, -3]) * coordinate_limit(e.kind);
        }
    }
    e
}

// Each call on one element, with faults that count behind 21, too: of the room, of p and of the sheet.
fn single_lines(r: &mut Random, e: &Element, out: &mut Vec<String>) {
    let xs = words(&e.coords);
    out.push(format!("control {} {}{}", r.pick(&[0, 5, 16]), e.kind, xs));
    out.push(format!("bounds {}{}", e.kind, xs));
    out.push(format!("verdict {} {}{}", e.kind, e.limit, xs));
    out.push(format!("floor {} {} {}{}", r.pick(&[0, 50, 100]), e.kind, e.limit, xs));
    out.push(sheet_line(r.pick(&[0, 6, 4_096]), e));
    out.push(check_line(r.pick(&[&HEADER[..], b"", b"CPS\x01\x00\x00"]), e));
    let (room, xs) = (r.pick(&[0, 79, 80]), written(r, e));
    out.push(append_line(buffer(r, room), NEXT, e));
    out.push(text_line(buffer(r, room), e.kind, e.limit, &xs));
}

// Collapsed elements, with and without a fault that counts before.
fn in_single_calls(r: &mut Random, out: &mut Vec<String>) {
    for kind in KINDS {
        let e = any_collapsed(r, kind);
        single_lines(r, &e, out);
        for fault in [1, 2, 3, 4] {
            let e = any_collapsed(r, kind);
            let e = with_fault(r, &e, fault);
            assert!(code(&e) == fault);
            single_lines(r, &e, out);
        }
        for (a, b) in pairs(kind) {
            // the pair itself is too far away
            let (is_far, call) = (once_in(r, 2), r.pick(&CALLS));
            let mut e = collapsed(r, kind, (a, b), is_far);
            [a, b].iter().for_each(|k| e.coords[2 * k] += 3 * coordinate_limit(kind));
            ask_with(r, 4, call, &e, out);
        }
    }
}

// Triangles under floors that there are not.
fn under_floors(r: &mut Random, out: &mut Vec<String>) {
    for pair in pairs(6) {
        for p in [0, 100, 255] {
            let is_far = once_in(r, 2);
            let e = collapsed(r, 6, pair, is_far);
            out.push(format!("floor {} 6 {}{}", p, r.pick(&[0, 3, 7, 8]), words(&e.coords)));
        }
    }
}

// ---- other faults of a record

// What else can be wrong with a record, in the order in which it counts; `Signed` is wrong in version 1 alone.
#[derive(Clone, Copy)]
enum Other {
    Nothing,
    Kind,
    Limit,
    Beyond,
    NoSign,
    NoLevel,
    Unused,
    Far,
    Sunk,
    Signed,
    OtherWord,
    OtherLevel,
}

const OTHERS: [Other; 12] = {
    use self::Other::*;
    [Nothing, Kind, Limit, Beyond, NoSign, NoLevel, Unused, Far, Sunk, Signed, OtherWord, OtherLevel]
};

// The record of an element with that fault; kind 9 has no pairs that are unused.
fn record(r: &mut Random, id: u32, e: &Element, other: Other) -> Vec<u8> {
    let element = if let Other::Far = other { with_fault(r, e, 4) } else { e.clone() };
    let mut out = record_bytes(&Record { id, element });
    let [word, level] = signature(&e.verdict()).unwrap_or([1, e.limit]);
    let signed: [u8; 2] = match other {
        Other::Beyond => [word, greatest_level(e.kind) + 1],
        Other::NoSign => [3, level],
        Other::NoLevel => [0, 1],
        Other::Signed => [word, level],
        Other::OtherWord => [3 - word, level],
        Other::OtherLevel => [word, (level + 1) % 4],
        _ => [0, 0],
    };
    out[6..8].copy_from_slice(&signed);
    match other {
        Other::Kind => out[4] = r.pick(&[0, 5, 7, 10, 255]),
        Other::Limit => out[5] = greatest_level(e.kind) + 1,
        Other::Unused if e.kind < 9 => out[r.range(8 + 8 * e.kind as i64, 79) as usize] = 1,
        Other::Sunk => out[..4].copy_from_slice(&0u32.to_le_bytes()),
        _ => {}
    }
    out
}

// Every call on a block; some of them ask for one record and for one that there is not.
fn block_lines(r: &mut Random, version: u16, records: &[Vec<u8>], at: usize) -> Vec<String> {
    let (b, count) = (assembled(version, records), records.len());
    let mut out: Vec<String> = ["check", "walk", "list", "convert 1", "convert 2"].iter().map(|c| format!("{} {}", c, hex(&b))).collect();
    for (call, k) in [("fetch", at), ("fetch", count), ("sign", at), ("sign", count)] {
        out.push(format!("{} {} {}", call, hex(&b), k));
    }
    let (e, room) = (stored_records(r, 1, 0).remove(0).element, r.pick(&[80, 80, 79]));
    let (buffer, xs) = ((b.iter().copied().chain(vec![0; room]).collect(), b.len() as u64), written(r, &e));
    out.push(append_line(buffer.clone(), NEXT, &e));
    out.push(mesh_line(buffer.clone(), e.kind, e.limit, &xs));
    out.push(text_line(buffer, e.kind, e.limit, &xs));
    out
}

// A check of that block, and another call.
fn two_lines(r: &mut Random, version: u16, records: &[Vec<u8>], at: usize, out: &mut Vec<String>) {
    let lines = block_lines(r, version, records, at);
    let other = r.range(1, lines.len() as i64 - 1) as usize;
    out.extend([lines[0].clone(), lines[other].clone()]);
}

// Good records, the last one with the id before the next one; in version 2 those that are settled are signed.
fn good_records(r: &mut Random, version: u16, count: usize) -> Vec<Vec<u8>> {
    let sign = |e: &Element| version == 2 && signature(&e.verdict()).is_some();
    let stored = stored_records(r, count, NEXT - 1);
    stored.iter().map(|s| record(r, s.id, &s.element, if sign(&s.element) { Other::Signed } else { Other::Nothing })).collect()
}

// The same with a collapsed record at that place.
fn with_collapsed(r: &mut Random, version: u16, count: usize, at: usize) -> Vec<Vec<u8>> {
    let (mut out, kind) = (good_records(r, version, count), r.pick(&KINDS));
    let e = any_collapsed(r, kind);
    out[at] = record(r, NEXT - (count - at) as u32, &e, Other::Nothing);
    out
}

// A collapsed record behind a good one, with each other fault.
fn in_records(r: &mut Random, out: &mut Vec<String>) {
    for kind in KINDS {
        for other in OTHERS {
            let (first, second) = (any_collapsed(r, kind), any_collapsed(r, kind));
            let mut records = good_records(r, 1, 1);
            records.push(record(r, NEXT, &first, other));
            out.push(format!("check {}", hex(&assembled(1, &records))));
            let mut records = good_records(r, 2, 1);
            records.push(record(r, NEXT, &second, other));
            two_lines(r, 2, &records, 1, out);
        }
    }
}

// A collapsed record at several places, and every call.
fn in_blocks(r: &mut Random, out: &mut Vec<String>) {
    for version in [1, 2] {
        for (count, at) in [(1, 0), (3, 1), (5, 4)] {
            let records = with_collapsed(r, version, count, at);
            out.extend(block_lines(r, version, &records, at));
        }
    }
}

// A collapsed record, and another fault in a record before it or behind it.
fn beside_others(r: &mut Random, out: &mut Vec<String>) {
    for other in OTHERS {
        for (at, other_at) in [(0, 1), (2, 1)] {
            let (version, kind) = (r.pick(&[1, 2, 2]), r.pick(&KINDS));
            let mut records = with_collapsed(r, version, 3, at);
            let e = first_accepted(r, |r| {
                let s = any_shape(r, kind);
                put(r, kind, &s, false)
            });
            records[other_at] = record(r, NEXT - 3 + other_at as u32, &e, other);
            two_lines(r, version, &records, at, out);
        }
    }
}

// ---- appending

// Collapsed elements appended with ids that are too low, without room, to a wrong `used` and to a block with a fault.
fn appended(r: &mut Random, out: &mut Vec<String>) {
    for kind in KINDS {
        for (id, room, over, other) in [
            (NEXT, 79, 0, Other::Nothing), (NEXT - 1, 80, 0, Other::Nothing), (0, 0, 0, Other::Nothing), (NEXT, 80, 81, Other::Nothing),
            (NEXT, 80, 0, Other::Kind), (NEXT, 80, 0, Other::OtherWord),
        ] {
            let (e, version) = (any_collapsed(r, kind), r.pick(&[1, 2]));
            let (mut records, last) = (good_records(r, version, 2), stored_records(r, 1, 0).remove(0));
            records[1] = record(r, NEXT - 1, &last.element, other);
            let b = assembled(version, &records);
            let used = (b.len() + over) as u64;
            out.push(append_line((b.into_iter().chain(vec![0; room]).collect(), used), id, &e));
        }
        let (e, sunk) = (any_collapsed(r, kind), block_bytes(&stored_records(r, 1, NEXT)));
        let (used, xs) = (sunk.len() as u64, written(r, &e));
        out.push(mesh_line((sunk.clone(), used), kind, e.limit, &xs));
        out.push(text_line((sunk, used), kind, e.limit, &xs));
    }
}

// Blocks of 800 records: to a full one is appended, and of another one the last record is collapsed.
fn full(r: &mut Random, out: &mut Vec<String>) {
    let b = block_bytes(&stored_records(r, 800, 4_999));
    let used = b.len() as u64;
    for id in [5_000, 4_999] {
        out.push(append_line((b.clone(), used), id, &any_collapsed(r, 6)));
    }
    let mut records = stored_records(r, 800, 4_999);
    records[799].element = any_collapsed(r, 8);
    let records: Vec<Vec<u8>> = records.iter().map(record_bytes).collect();
    out.push(format!("check {}", hex(&assembled(2, &records))));
}

// ---- texts

// An element of a text: its numbers, and its coordinates as they are written.
struct Listed {
    id: u32,
    kind: u8,
    limit: u8,
    xs: Vec<String>,
}

// A text of records.
fn text_of(list: &[Listed]) -> Vec<u8> {
    let lines: Vec<String> = list.iter().map(|l| format!("{} {} {} {}\n", l.id, l.kind, l.limit, l.xs.join(" "))).collect();
    lines.concat().into_bytes()
}

// A Gmsh text, in which a place is listed once or as often as it comes. The nodes of an element without coordinates are not listed. Before
// all stands an element of another type, with one node at all its corners.
fn mesh_of(list: &[Listed], is_once: bool) -> Vec<u8> {
    let (mut nodes, mut elements): (Vec<&[String]>, String) = (Vec::new(), "1 2 0 1 1 1\n".to_string());
    for l in list {
        let mut numbers = vec![9_999; l.kind as usize];
        for (xs, &place) in l.xs.chunks(2).zip(places(l.kind)) {
            let known = nodes.iter().position(|&n| is_once && n == xs).unwrap_or(nodes.len());
            if known == nodes.len() {
                nodes.push(xs);
            }
            numbers[place] = known + 1;
        }
        elements += &format!("{} {} 0{}\n", l.id, gmsh_type(l.kind), words(&numbers));
    }
    let rows: Vec<String> = nodes.iter().enumerate().map(|(k, n)| format!("{} {} 0\n", k + 1, n.join(" "))).collect();
    let nodes = format!("$Nodes\n{}\n{}$EndNodes\n", rows.len(), rows.concat());
    let elements = format!("$Elements\n{}\n{}$EndElements\n", list.len() + 1, elements);
    format!("$MeshFormat\n2.2 0 8\n$EndMeshFormat\n{}{}", nodes, elements).into_bytes()
}

// Two elements of these kinds, the one at that place collapsed; written alike, or each coordinate in one of its ways.
fn two_listed(r: &mut Random, kinds: [u8; 2], at: usize, is_alike: bool) -> Vec<Listed> {
    let mut out = Vec::new();
    for (k, &kind) in kinds.iter().enumerate() {
        let pair = r.pick(&pairs(kind));
        let s = if k == at { joined(r, kind, pair) } else { any_shape(r, kind) };
        let is_far = once_in(r, 2);
        let e = put(r, kind, &s, is_far);
        let xs = e.coords.iter().map(|&x| if is_alike { x.to_string() } else { coordinate(r, x as Num) }).collect();
        out.push(Listed { id: NEXT + k as u32, kind, limit: e.limit, xs });
    }
    out
}

// The fault of that code in an element of a text; one of the room is not here.
fn spoil_listed(r: &mut Random, l: &mut Listed, fault: u8) {
    let some = r.range(0, l.xs.len() as i64 - 1) as usize;
    match fault {
        1 => l.kind = 7,
        2 => l.limit = greatest_level(l.kind) + 1,
        3 => l.xs.truncate(some),
        4 => l.xs[some] = "4294967296".to_string(),
        10 => l.id = 1,
        13 => l.xs[some] = "x".to_string(),
        14 => l.xs[some] = "0.5".to_string(),
        15 => l.xs.clear(),
        _ => {}
    }
}

// A good block with room for so many records, and how many bytes of it are used.
fn roomy(r: &mut Random, count: usize) -> (Vec<u8>, u64) {
    let mut out = block_bytes(&stored_records(r, 1, NEXT - 1));
    let used = out.len();
    out.resize(used + 80 * count + 79, 0);
    (out, used as u64)
}

// Where the collapsed element stands, and where the other fault.
const STANDING: [(usize, usize); 3] = [(0, 1), (1, 0), (1, 1)];

// Texts of records with a collapsed element and another fault.
fn in_texts(r: &mut Random, out: &mut Vec<String>) {
    for fault in [0, 1, 2, 3, 4, 5, 10, 13, 14] {
        for (at, other_at) in STANDING {
            let kinds = [r.pick(&KINDS), r.pick(&KINDS)];
            let mut list = two_listed(r, kinds, at, false);
            spoil_listed(r, &mut list[other_at], fault);
            let (buffer, used) = roomy(r, if fault == 5 { other_at } else { 2 });
            out.push(packs::Question { text: text_of(&list), buffer, used }.line());
        }
    }
}

// Gmsh texts with a collapsed element and another fault; the limit is one for all, and only quads can be beyond it.
fn in_meshes(r: &mut Random, out: &mut Vec<String>) {
    for fault in [0, 2, 4, 5, 10, 13, 14, 15] {
        for (at, other_at) in STANDING {
            let (mut kinds, is_once) = ([r.pick(&KINDS), r.pick(&KINDS)], once_in(r, 2));
            if fault == 2 {
                (kinds[at], kinds[other_at]) = (6, r.pick(&[8, 9]));
            }
            let mut list = two_listed(r, kinds, at, is_once);
            spoil_listed(r, &mut list[other_at], fault);
            let (buffer, used) = roomy(r, if fault == 5 { other_at } else { 2 });
            let limit = if fault == 2 { 5 } else { r.range(0, 4) as u8 };
            out.push(texts::Question { text: mesh_of(&list, is_once), limit, buffer, used }.line());
        }
    }
}

// ---- quads that would be valid

// Quads with the corners of a diagonal at one place, and J above zero everywhere.
const VALID: [(u8, &[i64]); 2] = [
    (9, &[1981, 2000, 2000, 1337, 1814, 1308, 2000, -2000, 1000, 572, 1537, 1798, -879, -963, -2000, 1883, 1981, 2000]),
    (8, &[2000, 1363, -358, 2000, -1718, -369, 1776, 1445, 1368, -1165, 1771, 1261, 1847, 1210, 2000, 1363]),
];

// Those quads in every call, under every limit and signed; and with that pair one step apart.
fn valid_otherwise(r: &mut Random, out: &mut Vec<String>) {
    for (kind, coords) in VALID {
        let e = Element { kind, limit: greatest_level(kind), coords: coords.to_vec() };
        assert!(e.verdict().word == "valid");
        calls(kind).for_each(|call| ask_with(r, 21, call, &e, out));
        for limit in 0..e.limit {
            ask_with(r, 21, "verdict", &Element { limit, ..e.clone() }, out);
        }
        for other in [Other::Signed, Other::OtherWord, Other::OtherLevel] {
            let records = [record(r, NEXT, &e, other)];
            two_lines(r, 2, &records, 0, out);
        }
        for (axis, step) in [(0, 1), (0, -1), (1, 1), (1, -1)] {
            let mut e = e.clone();
            e.coords[2 * kind as usize - 2 + axis] += step;
            ask_with(r, 0, "verdict", &e, out);
            ask_with(r, 0, "list", &e, out);
        }
    }
}

pub fn questions() -> Vec<String> {
    let r = &mut Random(20_261_125);
    let mut out = Vec::new();
    every_pair(r, &mut out);
    more_corners(r, &mut out);
    all_nodes(r, &mut out);
    other_nodes(r, &mut out);
    one_axis(r, &mut out);
    nearly(r, &mut out);
    in_single_calls(r, &mut out);
    under_floors(r, &mut out);
    in_records(r, &mut out);
    in_blocks(r, &mut out);
    beside_others(r, &mut out);
    appended(r, &mut out);
    full(r, &mut out);
    in_texts(r, &mut out);
    in_meshes(r, &mut out);
    valid_otherwise(r, &mut out);
    out
}
