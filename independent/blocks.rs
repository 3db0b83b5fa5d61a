// Element blocks, good and damaged, by a generator of random numbers.

use crate::block::Record;
use crate::element::Element;
use crate::sets::Random;

// Some records with rising ids, of those elements that fit.
pub fn records(r: &mut Random, from: &[Element], count: usize, fits: impl Fn(&Element) -> bool) -> Vec<Record> {
    let mut id = r.range(0, 9) as u32;
    let mut out = Vec::new();
    while out.len() < count {
        let element = from[(r.next() % from.len() as u64) as usize].clone();
        if !fits(&element) {
            continue;
        }
        out.push(Record { id, element });
        id += r.range(1, 1_000_000) as u32;
    }
    out
}

// A block with some byte or its length changed.
pub fn damaged(r: &mut Random, b: &[u8]) -> Vec<u8> {
    let mut out = b.to_vec();
    match r.range(0, 5) {
        0 => out.truncate((r.next() % (b.len() as u64 + 1)) as usize),
        1 => out.extend([0; 80]),
        2 => {
            let at = (r.next() % 9.min(b.len() as u64)) as usize;
            out[at] ^= 1 << r.range(0, 7);
        }
        3 if b.len() > 9 => {
            // the head of a record
            let k = r.next() as usize % ((b.len() - 9) / 80);
            out[9 + 80 * k + r.range(0, 7) as usize] ^= 1 << r.range(0, 7);
        }
        _ => {
            let at = (r.next() % b.len() as u64) as usize;
            out[at] = r.next() as u8;
        }
    }
    out
}
