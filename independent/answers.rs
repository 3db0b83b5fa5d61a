// What the program `calls` answers to its lines.

use crate::block::{append, block_bytes, check, hex, list, stored, Record, Stored};
use crate::element::{judged_code, Element};
use crate::floor::floor_verdict;
use crate::mend::{mend, replaced, straighten, told};
use crate::mesh::append_mesh;
use crate::pack::append_text;
use crate::sheet::{check_sheet, write_sheet};
use crate::sign::{convert, sign};
use crate::solver::{scale, unscale};
use crate::verdict::{Judged, Verdict};

// Numbers with a blank before each.
pub fn words<T: ToString>(l: &[T]) -> String {
    l.iter().map(|x| format!(" {}", x.to_string())).collect()
}

// A refusal: the code, the record, and so many zeros.
fn refused((code, record): (u8, usize), zeros: usize) -> String {
    format!("{} {}{}", code, record, " 0".repeat(zeros))
}

// ---- elements

// A verdict, or a code.
fn verdict_answer(told: Result<Verdict, u8>) -> String {
    match told {
        Ok(v) => format!("0 {} {} {} {} {} {}", v.word, v.level, v.i, v.j, v.value, v.cells),
        Err(c) => format!("{} - 0 0 0 0 0", c),
    }
}

fn verdict_of(e: &Element) -> Result<Verdict, u8> {
    match judged_code(e, true) {
        0 => Ok(e.verdict()),
        c => Err(c),
    }
}

fn control_answer(room: usize, e: &Element) -> String {
    match judged_code(e, false) {
        0 => {
            let v = e.control_values();
            if room < v.len() { "5 0".to_string() } else { format!("0 {}{}", v.len(), words(&v)) }
        }
        c => format!("{} 0", c),
    }
}

fn bounds_answer(e: &Element) -> String {
    match judged_code(e, false) {
        0 => {
            let v = e.control_values();
            format!("0 {} {}", v.iter().min().unwrap(), v.iter().max().unwrap())
        }
        c => format!("{} 0 0", c),
    }
}

// ---- sheets

// The most room that the program `calls` gives a sheet.
const MOST_ROOM: usize = 64_000;

fn sheet_answer(room: usize, e: &Element) -> String {
    match write_sheet(room, e) {
        Ok(sheet) => format!("0 {} {}", sheet.len(), hex(&sheet)),
        Err(c) => format!("{} 0 -", c),
    }
}

// ---- straightening

fn straighten_answer(e: &Element) -> String {
    match straighten(e) {
        Ok(set) => format!("0{}{}", words(&replaced(&e.coords, set)), words(&told(&e.coords, set))),
        Err(c) => format!("{}{}", c, " 0".repeat(12 + 15)),
    }
}

// ---- a solver's coordinates

// The most room that the program `calls` gives numbers, and the most that it reads.
const MOST_PLACES: usize = 64;

fn handed_answer(told: Result<Vec<String>, u8>) -> String {
    match told {
        Ok(l) => format!("0 {}{}", l.len(), words(&l)),
        Err(c) => format!("{} 0", c),
    }
}

fn places(room: &str) -> Option<usize> {
    room.parse().ok().filter(|&n| n <= MOST_PLACES)
}

// Numbers that are no more than there is room for.
fn few<T>(all: Option<Vec<T>>) -> Option<Vec<T>> {
    all.filter(|l| l.len() <= MOST_PLACES)
}

fn scale_answer(room: &str, kind: &str, bits: &[&str]) -> Option<String> {
    let pattern = |b: &&str| if b.len() == 16 { u64::from_str_radix(b, 16).ok() } else { None };
    let bits = few(bits.iter().map(pattern).collect())?;
    let told = scale(places(room)?, kind.parse().ok()?, &bits);
    Some(handed_answer(told.map(|l| l.iter().map(|v| v.to_string()).collect())))
}

fn unscale_answer(room: &str, kind: &str, numbers: &[&str]) -> Option<String> {
    let numbers = few(numbers.iter().map(|v| v.parse::<i32>().ok()).collect())?;
    let told = unscale(places(room)?, kind.parse().ok()?, &numbers);
    Some(handed_answer(told.map(|l| l.iter().map(|b| format!("{:016x}", b)).collect())))
}

// ---- blocks

fn check_answer(b: &[u8]) -> String {
    match check(b) {
        Ok(n) => format!("0 0 {}", n),
        Err(fault) => refused(fault, 1),
    }
}

fn record_answer(r: &Stored) -> String {
    format!("0 0 {} {} {} {} {}{}", r.id, r.kind, r.limit, r.signed, r.level, words(&r.pairs))
}

fn fetch_answer(b: &[u8], k: u32) -> String {
    let k = k as usize;
    let told = check(b).and_then(|n| if k < n { Ok(stored(b, k)) } else { Err((12, 0)) });
    match told {
        Ok(r) => record_answer(&r),
        Err(fault) => refused(fault, 5 + 18),
    }
}

fn walk_answer(b: &[u8]) -> String {
    match check(b) {
        Ok(n) => {
            let records: String = (0..n).map(|k| format!(" / {}", record_answer(&stored(b, k)))).collect();
            format!("0 0{} / end", records)
        }
        Err(fault) => format!("{} / end", refused(fault, 0)),
    }
}

fn start_answer(mut b: Vec<u8>) -> String {
    let head = block_bytes(&[]);
    if b.len() < head.len() {
        return format!("5 0 {}", hex(&b));
    }
    b[..head.len()].copy_from_slice(&head);
    format!("0 {} {}", head.len(), hex(&b))
}

fn append_answer(mut b: Vec<u8>, used: u64, r: &Record) -> String {
    match append(&mut b, used, r) {
        Ok(used) => format!("0 0 {} {}", used, hex(&b)),
        Err(fault) => format!("{} {}", refused(fault, 1), hex(&b)),
    }
}

// What became of a block that was to be signed or converted.
fn changed_answer(b: &[u8], told: Result<Vec<u8>, (u8, usize)>) -> String {
    match told {
        Ok(after) => format!("0 0 {}", hex(&after)),
        Err(fault) => format!("{} {}", refused(fault, 0), hex(b)),
    }
}

fn mend_answer(b: &[u8], k: u32) -> String {
    match mend(b, k) {
        Ok((told, after)) => format!("0 0{} {}", words(&told), hex(&after)),
        Err(fault) => format!("{} {}", refused(fault, 15), hex(b)),
    }
}

fn mesh_answer(text: &[u8], limit: u8, buffer: &[u8], used: u64) -> String {
    let (m, after) = append_mesh(text, limit, buffer, used);
    format!("{} {} {} {} {} {}", m.code, m.record, m.used, m.appended, m.passed, hex(&after))
}

fn text_answer(text: &[u8], buffer: &[u8], used: u64) -> String {
    match append_text(text, buffer, used) {
        Ok((used, appended, after)) => format!("0 0 0 0 {} {} {}", used, appended, hex(&after)),
        Err(f) => format!("{} {} {} {} 0 0 {}", f.code, f.record, f.line, f.word, hex(buffer)),
    }
}

// ---- lines

// The bytes that `hex` wrote.
fn unhex(h: &str) -> Option<Vec<u8>> {
    if h == "-" {
        return Some(Vec::new());
    }
    if h.len() % 2 == 1 {
        return None;
    }
    h.as_bytes().chunks(2).map(|c| u8::from_str_radix(std::str::from_utf8(c).ok()?, 16).ok()).collect()
}

fn element(kind: &str, limit: &str, coords: &[&str]) -> Option<Element> {
    let coords: Option<Vec<i64>> = coords.iter().map(|x| Some(x.parse::<i32>().ok()? as i64)).collect();
    Some(Element { kind: kind.parse().ok()?, limit: limit.parse().ok()?, coords: coords? })
}

// The answer to a line; `?` where it is no call.
pub fn answer(line: &str) -> String {
    call(line).unwrap_or("?".to_string())
}

fn call(line: &str) -> Option<String> {
    // a number has no plus sign, and no block has one
    if line.contains('+') {
        return None;
    }
    let w: Vec<&str> = line.split(' ').collect();
    Some(match w[..] {
        ["control", room, kind, ref coords @ ..] => control_answer(room.parse().ok()?, &element(kind, "0", coords)?),
        ["bounds", kind, ref coords @ ..] => bounds_answer(&element(kind, "0", coords)?),
        ["verdict", kind, limit, ref coords @ ..] => verdict_answer(verdict_of(&element(kind, limit, coords)?)),
        ["floor", p, kind, limit, ref coords @ ..] => {
            verdict_answer(floor_verdict(p.parse().ok()?, &element(kind, limit, coords)?))
        }
        ["sheet", room, kind, limit, ref coords @ ..] => {
            let room = room.parse().ok().filter(|&n| n <= MOST_ROOM)?;
            sheet_answer(room, &element(kind, limit, coords)?)
        }
        ["checksheet", sheet, kind, limit, ref coords @ ..] => {
            check_sheet(&unhex(sheet)?, &element(kind, limit, coords)?).to_string()
        }
        ["straighten", kind, limit, ref coords @ ..] => straighten_answer(&element(kind, limit, coords)?),
        ["scale", room, kind, ref bits @ ..] => scale_answer(room, kind, bits)?,
        ["unscale", room, kind, ref numbers @ ..] => unscale_answer(room, kind, numbers)?,
        ["check", block] => check_answer(&unhex(block)?),
        ["fetch", block, k] => fetch_answer(&unhex(block)?, k.parse().ok()?),
        ["walk", block] => walk_answer(&unhex(block)?),
        ["list", block] => list(&unhex(block)?).join(" / "),
        ["start", buffer] => start_answer(unhex(buffer)?),
        ["append", buffer, used, id, kind, limit, n, ref coords @ ..] if n == coords.len().to_string() => {
            let record = Record { id: id.parse().ok()?, element: element(kind, limit, coords)? };
            append_answer(unhex(buffer)?, used.parse().ok()?, &record)
        }
        ["sign", block, k] => {
            let b = unhex(block)?;
            changed_answer(&b, sign(&b, k.parse().ok()?))
        }
        ["convert", version, block] => {
            let (b, version) = (unhex(block)?, version.parse().ok().filter(|v| [1, 2].contains(v))?);
            changed_answer(&b, convert(&b, version))
        }
        ["mend", block, k] => mend_answer(&unhex(block)?, k.parse().ok()?),
        ["mesh", limit, used, buffer, text] => {
            mesh_answer(&unhex(text)?, limit.parse().ok()?, &unhex(buffer)?, used.parse().ok()?)
        }
        ["text", used, buffer, text] => text_answer(&unhex(text)?, &unhex(buffer)?, used.parse().ok()?),
        _ => return None,
    })
}
