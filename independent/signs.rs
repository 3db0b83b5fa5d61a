// Blocks of both versions, signed rightly and wrongly, and calls on them, from fixed seeds.

use crate::answers::words;
use crate::block::{assembled, hex, record_bytes, signature, stored, Record};
use crate::blocks::damaged;
use crate::element::{coordinate_limit, greatest_level, Element};
use crate::mesh::append_mesh;
use crate::pack::append_text;
use crate::packs;
use crate::sets::{elements, is_near, touching, two_corners, Random};
use crate::sign::{convert, sign};
use crate::texts::{self, once_in};
use crate::verdict::{Judged, Verdict};

// ---- elements

// An element and its verdict, with a limit that is not slow.
#[derive(Clone)]
pub struct Known {
    element: Element,
    verdict: Verdict,
}

// The greatest limit of a triangle that is not slow.
const QUICK: u8 = 5;

// How many elements of a sort there are.
const EACH: usize = 6;

impl Known {
    fn of(e: &Element) -> Known {
        let element = Element { limit: greatest_level(e.kind).min(QUICK), ..e.clone() };
        let verdict = element.verdict();
        Known { element, verdict }
    }

    // Its kind, word and level; alike in them are those of a sort.
    fn sort(&self) -> (u8, &str, u32) {
        (self.element.kind, self.verdict.word, self.verdict.level)
    }

    // The greatest level at which it can be judged and is not slow: one that is settled is so whatever the limit.
    fn top(&self) -> u8 {
        if self.verdict.word == "undecided" { self.element.limit } else { greatest_level(self.element.kind) }
    }

    // The two bytes that sign it; of one that stays undecided, any.
    fn sign(&self, r: &mut Random) -> [u8; 2] {
        signature(&self.verdict).unwrap_or([r.pick(&[1, 2]), self.element.limit])
    }
}

// Elements that are settled at each level that is not slow, and others that stay undecided.
pub fn stock() -> Vec<Known> {
    let mut out: Vec<Known> = Vec::new();
    for e in elements().iter().filter(|e| is_near(e)) {
        let known = Known::of(e);
        if out.iter().filter(|k| k.sort() == known.sort()).count() < EACH {
            out.push(known);
        }
    }
    out
}

fn one<'a>(r: &mut Random, stock: &'a [Known]) -> &'a Known {
    &stock[(r.next() % stock.len() as u64) as usize]
}

// ---- records and blocks

// An unsigned record, its limit anything that is not slow.
fn unsigned(r: &mut Random, id: u32, known: &Known) -> Vec<u8> {
    let limit = r.range(0, known.top() as i64) as u8;
    record_bytes(&Record { id, element: Element { limit, ..known.element.clone() } })
}

fn set_sign(record: &mut [u8], bytes: [u8; 2]) {
    record[6..8].copy_from_slice(&bytes);
}

// What can be wrong with a record, in the order in which it counts.
#[derive(Clone, Copy, PartialEq)]
enum Fault {
    Kind,
    Limit,
    // signed at a level that the kind does not have
    Beyond,
    // a first byte that is no sign
    NoSign,
    // unsigned, with a level
    NoLevel,
    Pair,
    Far,
    Collapsed,
    Sunk,
    OtherWord,
    OtherLevel,
}

const FAULTS: [Fault; 11] = {
    use self::Fault::*;
    [Kind, Limit, Beyond, NoSign, NoLevel, Pair, Far, Collapsed, Sunk, OtherWord, OtherLevel]
};

// A record with that fault; `before` is the id of the record before it.
fn spoil(r: &mut Random, record: &mut [u8], fault: Fault, known: &Known, before: u32) {
    let kind = known.element.kind;
    let greatest = greatest_level(kind);
    let beyond = r.pick(&[greatest + 1, greatest + 1, greatest + 2, 128, 255]);
    match fault {
        Fault::Kind => record[4] = r.pick(&[0, 5, 7, 10, 12, 255]),
        Fault::Limit => record[5] = beyond,
        Fault::Beyond => set_sign(record, [r.pick(&[1, 2]), beyond]),
        Fault::NoSign => set_sign(record, [r.pick(&[3, 3, 4, 128, 255]), r.pick(&[0, 1, greatest, beyond])]),
        Fault::NoLevel => set_sign(record, [0, r.pick(&[1, 1, greatest, beyond])]),
        Fault::Pair => {
            if kind < 9 {
                record[r.range(8 + 8 * kind as i64, 79) as usize] = r.pick(&[1, 128, 255]);
            }
        }
        Fault::Far => {
            let at = 8 + 4 * r.range(0, 2 * kind as i64 - 1) as usize;
            let far = coordinate_limit(kind) as i32 + 1;
            record[at..at + 4].copy_from_slice(&r.pick(&[far, -far, i32::MAX, i32::MIN]).to_le_bytes());
        }
        Fault::Collapsed => {
            let (from, to) = two_corners(r, kind);
            record.copy_within(8 + 8 * from..16 + 8 * from, 8 + 8 * to);
        }
        Fault::Sunk => record[..4].copy_from_slice(&r.pick(&[before, before, before.saturating_sub(1), 0]).to_le_bytes()),
        Fault::OtherWord => {
            let [word, level] = known.sign(r);
            set_sign(record, [3 - word, level]);
        }
        Fault::OtherLevel => {
            let [word, level] = known.sign(r);
            let others: Vec<u8> = (0..=known.top()).filter(|&d| d != level).collect();
            set_sign(record, [word, r.pick(&others)]);
        }
    }
}

// A block of that version with so many records and these faults, each in the record of that place; in version 1 nothing else is signed.
fn block(r: &mut Random, stock: &[Known], version: u16, count: usize, faults: &[(Fault, usize)]) -> Vec<u8> {
    let mut id = r.pick(&[0, 1, 40, 4_294_900_000]);
    let mut before = id;
    let mut records = Vec::new();
    for k in 0..count {
        let known = one(r, stock);
        let mut record = unsigned(r, id, known);
        match signature(&known.verdict) {
            Some(bytes) if version != 1 && !once_in(r, 3) => set_sign(&mut record, bytes),
            _ => {}
        }
        // those that count first are made last, so that they stay
        for &(fault, _) in faults.iter().rev().filter(|f| f.1 == k) {
            spoil(r, &mut record, fault, known, before);
        }
        records.push(record);
        before = id;
        id += r.pick(&[1, 1, 2, 70]);
    }
    assembled(version, &records)
}

// A block in which each of 800 records is signed, with long ids.
fn full(r: &mut Random, stock: &[Known]) -> Vec<u8> {
    let records: Vec<Vec<u8>> = (0..800)
        .map(|k| {
            let known = std::iter::repeat_with(|| one(r, stock)).find(|k| signature(&k.verdict).is_some()).expect("one that is settled");
            let mut record = unsigned(r, u32::MAX - 799 + k, known);
            set_sign(&mut record, known.sign(r));
            record
        })
        .collect();
    assembled(2, &records)
}

// How many whole records stand behind the head.
fn count(b: &[u8]) -> usize {
    b.len().saturating_sub(9) / 80
}

// The bytes of record k.
fn record(b: &mut [u8], k: usize) -> &mut [u8] {
    &mut b[9 + 80 * k..][..80]
}

// ---- calls

const CALLS: [&str; 7] = ["check", "walk", "fetch", "sign", "convert 1", "convert 2", "append"];

// The number of some record, or one that no record has.
fn place(r: &mut Random, b: &[u8]) -> u32 {
    let n = count(b) as u32;
    r.pick(&[0, n / 2, n.saturating_sub(1), n.saturating_sub(1), n, n + 1, u32::MAX])
}

// A call of append, now and then with a fault of its own.
fn append_line(r: &mut Random, stock: &[Known], b: &[u8]) -> String {
    let last = if count(b) > 0 { stored(b, count(b) - 1).id } else { 0 };
    let id = last.saturating_add(r.pick(&[0, 1, 1, 1, 1, 70]));
    let e = &one(r, stock).element;
    let limit = if once_in(r, 8) { greatest_level(e.kind) + 1 } else { e.limit };
    let room = r.pick(&[80, 80, 80, 80, 81, 79, 0]);
    let buffer: Vec<u8> = b.iter().copied().chain((0..room).map(|_| r.next() as u8)).collect();
    let used = if once_in(r, 10) { buffer.len() + 1 } else { b.len() };
    format!("append {} {} {} {} {} {}{}", hex(&buffer), used, id, e.kind, limit, e.coords.len(), words(&e.coords))
}

// A call on a block, as a line for the program `calls`.
fn line(r: &mut Random, stock: &[Known], call: &str, b: &[u8]) -> String {
    match call {
        "append" => append_line(r, stock, b),
        "fetch" | "sign" => format!("{} {} {}", call, hex(b), place(r, b)),
        _ => format!("{} {}", call, hex(b)),
    }
}

// A check, and so many other calls.
fn some_calls(r: &mut Random, stock: &[Known], b: &[u8], others: usize, out: &mut Vec<String>) {
    out.push(line(r, stock, "check", b));
    for _ in 0..others {
        let call = r.pick(&CALLS[1..]);
        out.push(line(r, stock, call, b));
    }
}

// ---- questions

// Blocks without fault: every call, and records signed from the first to behind the last.
fn good(r: &mut Random, stock: &[Known], out: &mut Vec<String>) {
    for version in [1, 2, 2] {
        for size in [0, 1, 2, 3, 4, 7, 12] {
            let b = block(r, stock, version, size, &[]);
            out.extend(CALLS.iter().map(|call| line(r, stock, call, &b)));
            out.extend((0..=size.min(4)).map(|k| format!("sign {} {}", hex(&b), k)));
            out.push(line(r, stock, "fetch", &b));
            out.push(line(r, stock, "append", &b));
        }
    }
}

// One record, signed in each way: an element of each sort, with both words, at each level and one beyond.
fn claims(r: &mut Random, stock: &[Known], out: &mut Vec<String>) {
    for (n, known) in stock.iter().enumerate() {
        if stock[..n].iter().any(|k| k.sort() == known.sort()) {
            continue;
        }
        for level in (0..=known.top()).chain([greatest_level(known.element.kind) + 1]) {
            for word in [1, 2] {
                let mut record = unsigned(r, 7, known);
                set_sign(&mut record, [word, level]);
                out.push(format!("check {}", hex(&assembled(2, &[record]))));
            }
        }
    }
}

// Triangles that are settled at the deepest levels, as `touching` has them, and the bytes that sign them. The last one stays undecided.
const DEEP: &[((i64, i64, i64), [u8; 2])] = &[
    ((2032, 33, 1026), [1, 6]), ((581, 9, 289), [2, 6]), ((1456, 6, -365), [1, 7]), ((2256, 8, 544), [2, 7]), ((1258, 28, 744), [1, 8]),
    ((831, 20, -515), [2, 8]), ((495, 17, 366), [1, 9]), ((820, 10, 362), [2, 9]), ((1262, 52, 1022), [1, 10]), ((1239, 33, -808), [2, 10]),
    ((339, 8, -208), [1, 10]),
];

// Those triangles: signed and with the limit 0; unsigned, to be signed; and signed with another word and at other levels.
fn deep(out: &mut Vec<String>) {
    for &((k, e, x), [word, level]) in DEEP {
        let block_of = |limit: u8, bytes: [u8; 2]| {
            let mut record = record_bytes(&Record { id: 7, element: Element { kind: 6, limit, coords: touching(k, e, x) } });
            set_sign(&mut record, bytes);
            hex(&assembled(2, &[record]))
        };
        out.push(format!("check {}", block_of(0, [word, level])));
        out.push(format!("sign {} 0", block_of(10, [0, 0])));
        // those that are slow are asked no more
        if level > 8 {
            continue;
        }
        out.push(format!("sign {} 0", block_of(level, [0, 0])));
        out.push(format!("sign {} 0", block_of(level - 1, [0, 0])));
        out.push(format!("sign {} 0", block_of(level - 1, [word, level])));
        for bytes in [[3 - word, level], [word, level - 1], [word, level + 1], [word, 0]] {
            out.push(format!("check {}", block_of(10, bytes)));
        }
    }
}

// Each of these faults alone, at several places.
fn alone(r: &mut Random, stock: &[Known], is_meant: impl Fn(Fault) -> bool, out: &mut Vec<String>) {
    for fault in FAULTS.iter().copied().filter(|&f| is_meant(f)) {
        for version in [1, 2, 2, 2] {
            for (size, at) in [(1, 0), (2, 0), (2, 1), (5, 3)] {
                let b = block(r, stock, version, size, &[(fault, at)]);
                some_calls(r, stock, &b, 2, out);
            }
        }
    }
}

// Two of these faults each, in one record and in two, the one before the other and behind it.
fn in_pairs(r: &mut Random, stock: &[Known], are_meant: impl Fn(Fault, Fault) -> bool, out: &mut Vec<String>) {
    for (k, &f) in FAULTS.iter().enumerate() {
        for &g in FAULTS[k + 1..].iter().filter(|&&g| are_meant(f, g)) {
            for (size, a, b) in [(1, 0, 0), (2, 0, 1), (2, 1, 0), (3, 1, 2), (4, 3, 1)] {
                let version = r.pick(&[1, 2, 2, 2, 2, 2]);
                let b = block(r, stock, version, size, &[(f, a), (g, b)]);
                some_calls(r, stock, &b, 1, out);
            }
        }
    }
}

// Larger blocks, of which one, two or three records are signed wrongly.
fn wrongly_signed(r: &mut Random, stock: &[Known], out: &mut Vec<String>) {
    for n in 0..36 {
        let size = r.range(4, 12);
        let faults: Vec<(Fault, usize)> = (0..=n % 3)
            .map(|_| (r.pick(&[Fault::OtherWord, Fault::OtherLevel]), r.range(0, size - 1) as usize))
            .collect();
        let b = block(r, stock, 2, size as usize, &faults);
        some_calls(r, stock, &b, 2, out);
    }
}

// Other versions, in the block and as the one that is wanted.
fn versions(r: &mut Random, stock: &[Known], out: &mut Vec<String>) {
    for version in [0, 3, 4, 255, 256, 257, 258, 512, 513, 65_535] {
        for faults in [&[][..], &[(Fault::Kind, 1)], &[(Fault::OtherWord, 0)]] {
            let mut b = block(r, stock, version, 2, faults);
            some_calls(r, stock, &b, 1, out);
            b.truncate(r.pick(&[3, 5, 8, 9, 168]));
            some_calls(r, stock, &b, 1, out);
        }
        out.push(format!("convert {} {}", version, hex(&block(r, stock, 2, 1, &[]))));
    }
}

// Blocks with some byte or the length changed.
fn changed(r: &mut Random, stock: &[Known], out: &mut Vec<String>) {
    for k in 0..140 {
        let b = block(r, stock, 1 + (k % 5).min(1), k as usize % 4, &[]);
        let b = damaged(r, &b);
        some_calls(r, stock, &b, 1, out);
    }
}

// A block of version 1 and what becomes of it: converted, each record signed, then each limit lowered, and all asked again.
fn history(r: &mut Random, stock: &[Known], size: usize, out: &mut Vec<String>) {
    let first = block(r, stock, 1, size, &[]);
    out.push(format!("convert 2 {}", hex(&first)));
    let mut b = convert(&first, 2).expect("a block of version 1");
    out.push(format!("convert 1 {}", hex(&b)));
    for k in 0..size {
        out.push(format!("sign {} {}", hex(&b), k));
        b = sign(&b, k as u32).unwrap_or(b);
    }
    for k in 0..size {
        record(&mut b, k)[5] = 0;
    }
    for call in CALLS {
        out.push(line(r, stock, call, &b));
    }
    for k in 0..size {
        out.push(format!("sign {} {}", hex(&b), k));
    }
}

// The buffer with its block in version 2, and its first record signed; now and then wrongly.
fn signed_buffer(r: &mut Random, buffer: &[u8], used: u64) -> Option<Vec<u8>> {
    let used = used as usize;
    let b = convert(buffer.get(..used)?, 2).ok()?;
    let mut b = sign(&b, 0).unwrap_or(b);
    if count(&b) > 0 && once_in(r, 5) {
        set_sign(record(&mut b, 0), [r.pick(&[1, 2, 3]), r.pick(&[1, 2, 5])]);
    }
    b.extend(&buffer[used..]);
    Some(b)
}

// Whether a block of so many bytes holds no element that lies farther out.
fn all_near(b: &[u8], used: u64) -> bool {
    (0..count(&b[..used as usize])).all(|k| is_near(&stored(b, k).element()))
}

// Texts and meshes appended to blocks of version 2: some of those of the other sets that are appended to blocks with records.
fn texts_and_meshes(r: &mut Random, out: &mut Vec<String>) {
    let fits = |buffer: &[u8], used: u64| buffer.len() < 1_000 && used > 9;
    let packs = packs::questions().into_iter().filter(|q| {
        fits(&q.buffer, q.used) && append_text(&q.text, &q.buffer, q.used).is_ok_and(|(used, _, after)| all_near(&after, used))
    });
    for q in packs.step_by(2) {
        if let Some(buffer) = signed_buffer(r, &q.buffer, q.used) {
            out.push(packs::Question { buffer, ..q }.line());
        }
    }
    let meshes = texts::questions().into_iter().filter(|q| {
        let (told, after) = append_mesh(&q.text, q.limit, &q.buffer, q.used);
        fits(&q.buffer, q.used) && told.code == 0 && all_near(&after, told.used)
    });
    for q in meshes.step_by(6) {
        if let Some(buffer) = signed_buffer(r, &q.buffer, q.used) {
            out.push(texts::Question { buffer, ..q }.line());
        }
    }
}

// Blocks of 800 records: the last one to be signed, where all others are; and to be converted, where it alone is.
fn of_full_blocks(r: &mut Random, stock: &[Known], out: &mut Vec<String>) {
    let full = full(r, stock);
    let (mut signed, mut unsigned) = (full.clone(), full);
    let last = record(&mut signed, 799);
    last[5] = last[7];
    set_sign(last, [0, 0]);
    for k in 0..799 {
        set_sign(record(&mut unsigned, k), [0, 0]);
    }
    out.push(format!("sign {} 799", hex(&signed)));
    out.push(format!("convert 1 {}", hex(&unsigned)));
}

pub fn questions(stock: &[Known]) -> Vec<String> {
    let r = &mut Random(20_261_118);
    let mut out = Vec::new();
    good(r, stock, &mut out);
    claims(r, stock, &mut out);
    deep(&mut out);
    alone(r, stock, |f| f != Fault::Collapsed, &mut out);
    in_pairs(r, stock, |f, g| f != Fault::Collapsed && g != Fault::Collapsed, &mut out);
    wrongly_signed(r, stock, &mut out);
    versions(r, stock, &mut out);
    changed(r, stock, &mut out);
    for size in 0..25 {
        history(r, stock, size % 5, &mut out);
    }
    texts_and_meshes(r, &mut out);
    for size in [0, 1, 3] {
        out.push(format!("start {}", hex(&block(r, stock, 2, size, &[]))));
    }
    of_full_blocks(r, stock, &mut out);
    alone(r, stock, |f| f == Fault::Collapsed, &mut out);
    in_pairs(r, stock, |f, g| f == Fault::Collapsed || g == Fault::Collapsed, &mut out);
    out
}

// ---- blocks to be listed

// Blocks with and without faults, and one that is full.
pub fn blocks(stock: &[Known]) -> Vec<Vec<u8>> {
    let r = &mut Random(20_261_119);
    let mut out = Vec::new();
    for size in [0, 1, 2, 3, 5, 8, 12] {
        for _ in 0..3 {
            let b = block(r, stock, 2, size, &[]);
            out.push(damaged(r, &b));
            out.push(b);
        }
    }
    let faulty = |r: &mut Random, fault: Fault| [block(r, stock, 2, 1, &[(fault, 0)]), block(r, stock, 2, 3, &[(fault, 1)])];
    for fault in FAULTS.iter().copied().filter(|&f| f != Fault::Collapsed) {
        out.extend(faulty(r, fault));
    }
    out.push(full(r, stock));
    out.extend(faulty(r, Fault::Collapsed));
    out
}

// Blocks, each with its floor.
pub fn floor_blocks(stock: &[Known]) -> Vec<(u8, Vec<u8>)> {
    let r = &mut Random(20_261_120);
    let triangles: Vec<Known> = stock.iter().filter(|k| k.element.kind == 6).cloned().collect();
    let mut out = Vec::new();
    for size in [0, 1, 2, 3, 5, 12] {
        out.push((r.pick(&[0, 50, 50, 100]), block(r, stock, 2, size, &[])));
        for p in [1, 50, r.pick(&[10, 25, 75, 99])] {
            out.push((p, block(r, &triangles, 2, size, &[])));
        }
    }
    for fault in [Fault::Beyond, Fault::NoSign, Fault::OtherWord, Fault::OtherLevel, Fault::Collapsed] {
        out.push((50, block(r, stock, 2, 3, &[(fault, 1)])));
    }
    out
}
