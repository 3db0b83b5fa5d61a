// Triangles to be straightened, and records of blocks, from a fixed seed.
//   way         what becomes of a triangle: the set of middle nodes that is replaced, or none where no set helps

use crate::answers::words;
use crate::block::{assembled, hex, record_bytes, signature, stored, Record};
use crate::blocks::damaged;
use crate::element::{code, greatest_level, Element};
use crate::fars::{far_out, placed, GREATEST, LEAST};
use crate::mend::{mend, straighten, Set};
use crate::sets::{collapse, shaken, touching, Random};
use crate::sign::{convert, sign};
use crate::texts::once_in;
use crate::verdict::Judged;

// ---- triangles

// The greatest limit that is not slow.
const QUICK: i64 = 3;

// How many triangles there are of each way.
const EACH: usize = 24;

fn straighten_line(e: &Element) -> String {
    format!("straighten {} {}{}", e.kind, e.limit, words(&e.coords))
}

// A triangle with curved edges, at any limit that is not slow.
fn curved(r: &mut Random) -> Element {
    let size = r.pick(&[3, 6, 10, 10, 40, 40, 400]);
    let noise = size * r.range(1, 12) / 12 + 1;
    let limit = r.range(0, QUICK) as u8;
    Element { kind: 6, limit, coords: shaken(r, 6, size, noise) }
}

type Way = Option<Set>;

fn way(e: &Element) -> Way {
    straighten(e).ok()
}

// So many triangles of each way.
fn stock(r: &mut Random) -> Vec<(Element, Way)> {
    let mut out: Vec<(Element, Way)> = Vec::new();
    while out.len() < 9 * EACH {
        let e = curved(r);
        let way = way(&e);
        if out.iter().filter(|(_, w)| *w == way).count() < EACH {
            out.push((e, way));
        }
    }
    out
}

// The triangle with its first node elsewhere.
fn moved(e: &Element, origin: [i64; 2]) -> Element {
    let shape: Vec<[i64; 2]> = e.coords.chunks(2).map(|p| [p[0] - e.coords[0], p[1] - e.coords[1]]).collect();
    Element { limit: e.limit, ..placed(6, &shape, origin) }
}

// Triangles that reach to the ends of i32, where the sum of two coordinates takes 33 bits.
fn at_ends(r: &mut Random, e: &Element) -> Element {
    let far = |r: &mut Random, c: usize| {
        let all = e.coords.iter().skip(c).step_by(2).map(|x| x - e.coords[c]);
        if once_in(r, 2) { LEAST - all.min().expect("six") } else { GREATEST - all.max().expect("six") }
    };
    let origin = [far(r, 0), far(r, 1)];
    moved(e, origin)
}

fn triangles(r: &mut Random, stock: &[(Element, Way)], out: &mut Vec<String>) {
    for (e, _) in stock {
        out.push(straighten_line(e));
        let origin = far_out(r);
        out.push(straighten_line(&moved(e, origin)));
        out.push(straighten_line(&at_ends(r, e)));
        // the same again, under every limit that is not slow
        for limit in 0..=QUICK as u8 {
            out.push(straighten_line(&Element { limit, ..e.clone() }));
        }
    }
    // J nearly touches zero on an edge, and a middle node that stands one off the middle
    for _ in 0..60 {
        let k = r.range(1, 4_000);
        let coords = touching(k, r.range(-k / 8 - 1, k / 8 + 1), r.range(-k, k));
        out.push(straighten_line(&Element { kind: 6, limit: r.range(0, 4) as u8, coords }));
    }
    for _ in 0..60 {
        let mut e = curved(r);
        for (node, a, b) in [(3, 0, 1), (4, 1, 2), (5, 0, 2)] {
            for c in 0..2 {
                e.coords[2 * node + c] = (e.coords[2 * a + c] + e.coords[2 * b + c]) / 2 + r.range(-1, 1);
            }
        }
        out.push(straighten_line(&e));
    }
}

// What is refused before any set is tried: each fault alone, and with those that stand behind it.
fn refused(r: &mut Random, out: &mut Vec<String>) {
    for n in 0..120 {
        let mut e = curved(r);
        if n % 4 >= 3 || once_in(r, 5) {
            collapse(r, 6, &mut e.coords);
        }
        if n % 4 == 2 || once_in(r, 5) {
            let (at, most) = (r.range(0, 11) as usize, r.pick(&[65_537, 131_073, GREATEST]));
            e.coords[at] = if once_in(r, 2) { most } else { -most };
        }
        if once_in(r, 5) {
            e.coords.resize(r.pick(&[0, 1, 10, 11, 13, 14, 16, 18, 20, 64]), 0);
        }
        if n % 4 == 1 || once_in(r, 5) {
            e.limit = r.pick(&[10, 11, 11, 12, 128, 255]);
        }
        if n % 4 == 0 || once_in(r, 5) {
            e.kind = r.pick(&[0, 1, 5, 7, 8, 9, 10, 12, 255]);
        }
        if code(&e) != 0 || e.kind != 6 || e.limit as i64 <= QUICK {
            out.push(straighten_line(&e));
        }
    }
    for kind in [8, 9] {
        out.push(straighten_line(&Element { kind, limit: 2, coords: shaken(r, kind, 40, 5) }));
    }
}

// ---- records

fn mend_line(b: &[u8], k: u64) -> String {
    format!("mend {} {}", hex(b), k)
}

// A record of a triangle or, now and then, of a quad, signed or not. One that is signed may have a lower limit stored, or a higher one.
fn record(r: &mut Random, stock: &[(Element, Way)], version: u16, id: u32) -> Vec<u8> {
    let mut element = stock[(r.next() % stock.len() as u64) as usize].0.clone();
    if once_in(r, 6) {
        let (kind, noise) = (r.pick(&[8, 9]), r.pick(&[3, 8]));
        element = Element { kind, limit: 2, coords: shaken(r, kind, 40, noise) };
    } else if once_in(r, 5) {
        let origin = far_out(r);
        element = moved(&element, origin);
    }
    let mut out = record_bytes(&Record { id, element: element.clone() });
    if version == 2 && !once_in(r, 3) {
        if let Some(bytes) = signature(&element.verdict()) {
            out[6..8].copy_from_slice(&bytes);
            out[5] = r.range(0, QUICK.min(greatest_level(element.kind) as i64)) as u8;
        }
    }
    out
}

fn block(r: &mut Random, stock: &[(Element, Way)], version: u16, count: usize) -> Vec<u8> {
    let mut id = r.pick(&[0, 1, 40, 4_294_900_000]);
    let mut records = Vec::new();
    for _ in 0..count {
        records.push(record(r, stock, version, id));
        id += r.pick(&[1, 1, 2, 70]);
    }
    assembled(version, &records)
}

// Blocks without fault: each record, and what is behind the last.
fn good(r: &mut Random, stock: &[(Element, Way)], out: &mut Vec<String>) {
    for version in [1, 2, 2, 2] {
        for size in [0, 1, 1, 1, 1, 2, 2, 3, 4, 6] {
            let b = block(r, stock, version, size);
            out.extend((0..=size as u64).map(|k| mend_line(&b, k)));
            out.push(mend_line(&b, r.pick(&[size as u64 + 1, 800, u32::MAX as u64])));
        }
    }
}

// A triangle of each way as the one record of a block: unsigned, and signed with its verdict, at each stored limit that is not slow.
fn each_way(stock: &[(Element, Way)], out: &mut Vec<String>) {
    for (n, (e, way)) in stock.iter().enumerate() {
        if stock[..n].iter().filter(|(_, w)| w == way).count() >= 3 {
            continue;
        }
        let unsigned = assembled(2, &[record_bytes(&Record { id: 7, element: e.clone() })]);
        out.push(mend_line(&unsigned, 0));
        out.push(mend_line(&convert(&unsigned, 1).expect("nothing is signed"), 0));
        if let Ok(mut signed) = sign(&unsigned, 0) {
            for limit in 0..=QUICK as u8 {
                signed[9 + 5] = limit;
                out.push(mend_line(&signed, 0));
            }
        }
    }
}

// What becomes of a block: each record straightened, once and again, signed, and straightened once more; then the list.
fn history(r: &mut Random, stock: &[(Element, Way)], version: u16, size: usize, out: &mut Vec<String>) {
    let mut b = block(r, stock, version, size);
    for _ in 0..2 {
        for k in 0..size {
            out.push(mend_line(&b, k as u64));
            b = mend(&b, k as u32).map_or(b, |(_, after)| after);
        }
        out.push(format!("check {}", hex(&b)));
        out.push(format!("list {}", hex(&b)));
        for k in 0..size {
            out.push(format!("sign {} {}", hex(&b), k));
            b = sign(&b, k as u32).unwrap_or(b);
        }
    }
}

// Blocks with some byte or the length changed, and wrong signs.
fn faulty(r: &mut Random, stock: &[(Element, Way)], out: &mut Vec<String>) {
    for n in 0..120 {
        let version = r.pick(&[1, 2, 2]);
        let mut b = block(r, stock, version, 1 + n % 3);
        if n % 4 == 0 {
            let k = r.next() as usize % (1 + n % 3);
            let signed = stored(&b, k).signed;
            b[9 + 80 * k + 6] = r.pick(&[1, 2, 3 - signed.min(2), 3]);
            b[9 + 80 * k + 7] = r.pick(&[0, 1, 2, 10, 11]);
        } else {
            b = damaged(r, &b);
        }
        out.push(mend_line(&b, r.pick(&[0, 0, 1, 2, 9])));
    }
    for version in [0, 3, 256, 65_535] {
        out.push(mend_line(&block(r, stock, version, 1), 0));
    }
}

// A full block: its first and its last record, and what is behind it.
fn full(r: &mut Random, stock: &[(Element, Way)], out: &mut Vec<String>) {
    let records: Vec<Vec<u8>> = (0..800).map(|k| record(r, stock, 2, u32::MAX - 799 + k)).collect();
    let b = assembled(2, &records);
    out.extend([0, 799, 800].map(|k| mend_line(&b, k)));
}

// Lines that are no calls.
fn no_calls(r: &mut Random, stock: &[(Element, Way)], out: &mut Vec<String>) {
    let b = hex(&block(r, stock, 2, 1));
    for tail in ["", " ", " -1", " 4294967296", " x", " 0 0", " 0x0"] {
        out.push(format!("mend {}{}", b, tail));
    }
    for line in ["mend", "mend 4 0", "mend zz 0", "straighten", "straighten 6", "straighten 6 x", "straighten 256 0", "straighten 6 256", "Straighten 6 0"] {
        out.push(line.to_string());
    }
    let e = &stock[0].0;
    for word in ["2147483648", "-2147483649", "1.0", "+1", "--1", "x"] {
        out.push(format!("straighten 6 1{} {}", words(&e.coords[1..]), word));
    }
}

pub fn questions() -> Vec<String> {
    let r = &mut Random(20_261_121);
    let stock = stock(r);
    let mut out = Vec::new();
    triangles(r, &stock, &mut out);
    refused(r, &mut out);
    good(r, &stock, &mut out);
    each_way(&stock, &mut out);
    for version in [1, 2, 2, 2] {
        for size in 1..4 {
            history(r, &stock, version, size, &mut out);
        }
    }
    faulty(r, &stock, &mut out);
    full(r, &stock, &mut out);
    no_calls(r, &stock, &mut out);
    out
}
