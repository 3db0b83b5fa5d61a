// Element blocks of both versions, straight from the rules: their own writer, the check record by record and then of what is signed, and
// the list.

use crate::element::{accepted, code, collapsed, greatest_level, Element, RECORD_KINDS};
use crate::verdict::{Judged, Verdict};

pub struct Record {
    pub id: u32,
    pub element: Element,
}

pub fn record_bytes(r: &Record) -> Vec<u8> {
    let mut out = r.id.to_le_bytes().to_vec();
    out.extend([r.element.kind, r.element.limit, 0, 0]);
    for k in 0..18 {
        let x = r.element.coords.get(k).copied().unwrap_or(0);
        out.extend((x as i32).to_le_bytes());
    }
    out
}

// A block of version 1.
pub fn block_bytes(records: &[Record]) -> Vec<u8> {
    let records: Vec<Vec<u8>> = records.iter().map(record_bytes).collect();
    assembled(1, &records)
}

// A block of that version, from the bytes of its records.
pub fn assembled(version: u16, records: &[Vec<u8>]) -> Vec<u8> {
    let mut out = b"CEL".to_vec();
    out.extend(version.to_le_bytes());
    out.extend((records.len() as u32).to_le_bytes());
    out.extend(records.concat());
    out
}

fn u32_at(b: &[u8], at: usize) -> u32 {
    u32::from_le_bytes([b[at], b[at + 1], b[at + 2], b[at + 3]])
}

// The version of a block.
fn version(b: &[u8]) -> u16 {
    u16::from_le_bytes([b[3], b[4]])
}

// A record as it is stored. Its two bytes behind the limit: `signed` is 0 unsigned, 1 signed valid, 2 signed invalid, and `level` is the
// level of that verdict.
pub struct Stored {
    pub id: u32,
    pub kind: u8,
    pub limit: u8,
    pub signed: u8,
    pub level: u8,
    pub pairs: Vec<i64>,
}

pub fn stored(b: &[u8], k: usize) -> Stored {
    let at = 9 + 80 * k;
    let pairs = (0..18).map(|i| u32_at(b, at + 8 + 4 * i) as i32 as i64).collect();
    Stored { id: u32_at(b, at), kind: b[at + 4], limit: b[at + 5], signed: b[at + 6], level: b[at + 7], pairs }
}

impl Stored {
    // The element with its stored limit.
    pub fn element(&self) -> Element {
        Element { kind: self.kind, limit: self.limit, coords: self.pairs[..2 * self.kind as usize].to_vec() }
    }

    pub fn is_signed(&self) -> bool {
        self.signed == 1 || self.signed == 2
    }

    // The record's verdict: with its signed level as limit, if it is signed.
    pub fn verdict(&self) -> Verdict {
        let limit = if self.is_signed() { self.level } else { self.limit };
        Element { limit, ..self.element() }.verdict()
    }

    // Whether the two bytes are ones that a block of that version may have.
    fn has_good_bytes(&self, version: u16) -> bool {
        match (self.signed, self.level) {
            (0, 0) => true,
            (1 | 2, _) => version == 2,
            _ => false,
        }
    }

    // The record's code in a block of that version, where the id before is `last`: 1, then 2, 9, 4, 21, 10. What is signed is not yet
    // judged.
    fn code(&self, version: u16, last: i64) -> u8 {
        if !RECORD_KINDS.contains(&self.kind) {
            return 1;
        }
        let greatest = greatest_level(self.kind);
        if self.limit > greatest || version == 2 && self.is_signed() && self.level > greatest {
            return 2;
        }
        let (nodes, unused) = self.pairs.split_at(2 * self.kind as usize);
        if !self.has_good_bytes(version) || unused.iter().any(|&x| x != 0) {
            return 9;
        }
        if !accepted(self.kind, nodes) {
            return 4;
        }
        if collapsed(self.kind, nodes) {
            return 21;
        }
        if self.id as i64 <= last {
            return 10;
        }
        0
    }
}

// The two bytes that say a verdict; undecided ones are not signed.
pub fn signature(v: &Verdict) -> Option<[u8; 2]> {
    match v.word {
        "valid" => Some([1, v.level as u8]),
        "invalid" => Some([2, v.level as u8]),
        _ => None,
    }
}

// The first of so many records that is signed, and not as its verdict says.
fn wrongly_signed(b: &[u8], count: usize) -> Option<usize> {
    (0..count).find(|&k| {
        let r = stored(b, k);
        r.is_signed() && signature(&r.verdict()) != Some([r.signed, r.level])
    })
}

// The count, or the code and the record of the first fault.
pub fn check(b: &[u8]) -> Result<usize, (u8, usize)> {
    check_of(&[1, 2], b)
}

// The same where only these versions are taken.
pub fn check_of(versions: &[u16], b: &[u8]) -> Result<usize, (u8, usize)> {
    if b.len() < 9 || &b[..3] != b"CEL" {
        return Err((6, 0));
    }
    if !versions.contains(&version(b)) {
        return Err((7, 0));
    }
    let count = u32_at(b, 5) as u64;
    if count > 800 || b.len() as u64 != 9 + 80 * count {
        return Err((8, 0));
    }
    let count = count as usize;
    let mut last: i64 = -1;
    for k in 0..count {
        let r = stored(b, k);
        match r.code(version(b), last) {
            0 => last = r.id as i64,
            c => return Err((c, k)),
        }
    }
    match wrongly_signed(b, count) {
        Some(k) => Err((19, k)),
        None => Ok(count),
    }
}

// The count of the block in the first `used` bytes, or the code and the record of the first fault.
pub fn check_used(b: &[u8], used: u64) -> Result<usize, (u8, usize)> {
    if used > b.len() as u64 {
        return Err((5, 0));
    }
    check(&b[..used as usize])
}

// Appends a record to the block in the first `used` bytes: the new `used`, or the code and the record of the first fault.
pub fn append(b: &mut [u8], used: u64, r: &Record) -> Result<u64, (u8, usize)> {
    let count = check_used(b, used)?;
    let at = used as usize;
    match code(&r.element) {
        0 => {}
        c => return Err((c, 0)),
    }
    if count > 0 && r.id <= stored(b, count - 1).id {
        return Err((10, 0));
    }
    if count == 800 {
        return Err((11, 0));
    }
    if b.len() - at < 80 {
        return Err((5, 0));
    }
    b[at..at + 80].copy_from_slice(&record_bytes(r));
    b[5..9].copy_from_slice(&(count as u32 + 1).to_le_bytes());
    Ok(used + 80)
}

// What a line of the list has behind id and kind.
pub fn list_words(v: &Verdict) -> String {
    format!("{} {} {} {} {}", v.word, v.level, v.i, v.j, v.cells)
}

// The lines of a list in which `judged` says what stands behind a record's id and kind.
pub fn list_of(b: &[u8], judged: impl Fn(&Stored) -> String) -> Vec<String> {
    let count = match check(b) {
        Err((code, record)) => return vec![format!("refused {} {}", code, record)],
        Ok(n) => n,
    };
    let mut out = vec![format!("CEL {} {}", version(b), count)];
    for k in 0..count {
        let r = stored(b, k);
        assert!(code(&r.element()) == 0);
        out.push(format!("{} {} {}", r.id, r.kind, judged(&r)));
    }
    out
}

// What `verdicts` prints, its lines.
pub fn list(b: &[u8]) -> Vec<String> {
    list_of(b, |r| list_words(&r.verdict()) + if r.is_signed() { " signed" } else { "" })
}

pub fn hex(b: &[u8]) -> String {
    if b.is_empty() {
        return "-".to_string();
    }
    b.iter().map(|x| format!("{:02x}", x)).collect()
}
