// Texts of records, good and faulty, and blocks to append them to, from a fixed seed.

use crate::block::{block_bytes, hex};
use crate::element::{greatest_level, Num};
use crate::sets::{two_corners, uncollapsed, Random};
use crate::texts::{coordinate, coordinates, damaged, number, once_in, pick_word, rewritten, spoil, stored_records, FRACTIONS, WORDS};
use crate::words::whole_number;

// A call of `append_text`.
pub struct Question {
    pub text: Vec<u8>,
    pub buffer: Vec<u8>,
    pub used: u64,
}

impl Question {
    // The call as a line for the program `calls`.
    pub fn line(&self) -> String {
        format!("text {} {} {}", self.used, hex(&self.buffer), hex(&self.text))
    }
}

// What can be wrong, in the order in which it counts; `Cut` counts at the last line only.
#[derive(Clone, Copy, PartialEq)]
enum Fault {
    Short,
    Head,
    Word,
    Cut,
    Fraction,
    Used,
    Block,
    Kind,
    Limit,
    Count,
    Far,
    Collapsed,
    Sunk,
    Room,
}

const FAULTS: [Fault; 14] = {
    use self::Fault::*;
    [Short, Head, Word, Cut, Fraction, Used, Block, Kind, Limit, Count, Far, Collapsed, Sunk, Room]
};

// Words that are no whole numbers.
const NO_NUMBERS: &[&str] = &[
    "x", "-1", "+1", "-0", "6.", "6.0", "1e0", "0x6", "1_0", "6,", "6#", "½", "4294967296", "00004294967297", "8589934598",
    "18446744073709551622", "99999999999999999999999999999999999999999",
];

// Numbers of kinds that there are not; some are those of a kind, but for what is beyond a byte.
const KINDS: &[&str] = &["0", "1", "5", "7", "007", "10", "12", "255", "256", "262", "264", "265", "518", "65542", "4294967295"];

// Level limits that no kind has.
const LIMITS: &[&str] = &["11", "0011", "12", "255", "256", "257", "260", "65536", "16777216", "4294967295"];

// Whole coordinates outside the limit of every kind.
const FAR: &[&str] = &[
    "65537", "-65537", "+65537.0", "0065537", "2147483647", "-2147483647.00", "-2147483648", "2147483648", "-2147483649", "4294967296",
    "4294967304.0", "18446744073709551616", "-18446744073709551608", "99999999999999999999999999999999999999999.000",
];

// Lines that count for nothing.
const PASSED: &[&str] = &["", " ", "\t", "\r", "#", "# a comment", "#1 6 0 0 0", "  # 2", "\t#\t#", "## 1 2", "#\x00½ nan", "#1e"];

// Ends of a text whose last line has no end.
const STUBS: &[&str] = &[" ", "\t", "\r", "#", "# end", "9", "9 6 0", "x", "4000000000 6 0 0 0 8 0 0 8 4 0 4 4 0 4", "1 6 0 0.5", "9 7 99 1"];

// Bytes of texts without sense.
const BYTES: &[u8] = b" \t\r\n\n\n0123456789+-.e##6666   \x00\x0b\xa0\xff";

// A line of a record: its words.
type Line = Vec<String>;

// A good line with that id.
fn good_line(r: &mut Random, id: u64) -> Line {
    let kind = r.pick(&[6, 6, 6, 8, 9]);
    let limit = r.range(0, greatest_level(kind) as i64) as u64;
    let mut line = vec![number(r, id), number(r, kind as u64), number(r, limit)];
    for x in uncollapsed(r, kind, |r| coordinates(r, kind)) {
        line.push(coordinate(r, x as Num));
    }
    line
}

// Good lines with rising ids, the first one above `last`.
fn good_lines(r: &mut Random, count: usize, last: u64) -> (Vec<Line>, Vec<u64>) {
    let mut id = last;
    let mut ids = Vec::new();
    for _ in 0..count {
        id += r.pick(&[1, 1, 2, 30, 70_000]);
        ids.push(id);
    }
    (ids.iter().map(|&id| good_line(r, id)).collect(), ids)
}

// Some coordinate becomes another word.
fn set_coordinate(r: &mut Random, line: &mut Line, word: String) {
    if line.len() < 4 {
        return line.push(word);
    }
    let at = r.range(3, line.len() as i64 - 1) as usize;
    line[at] = word;
}

// A list of coordinates of another length.
fn miscount(r: &mut Random, line: &mut Line) {
    match r.range(0, 5) {
        0 => line.truncate(3),
        1 => line.truncate(line.len() - 1),
        2 => line.truncate(line.len() - 2),
        3 => line.push("0".to_string()),
        4 => line.extend(["0".to_string(), "0".to_string()]),
        _ => line.extend(vec!["7".to_string(); 64]),
    }
}

// Two corners of a good line at one place.
fn collapse(r: &mut Random, line: &mut Line) {
    let kind = whole_number(line[1].as_bytes()).expect("a kind") as u8;
    let (from, to) = two_corners(r, kind);
    for axis in 0..2 {
        line[3 + 2 * to + axis] = rewritten(r, &line[3 + 2 * from + axis]);
    }
}

// A line with that fault; `before` is the id before its own.
fn spoil_line(r: &mut Random, line: &mut Line, fault: Fault, before: u64) {
    match fault {
        Fault::Short => {
            if once_in(r, 2) {
                line[0] = pick_word(r, WORDS);
            }
            line.truncate(r.pick(&[1, 2]));
        }
        Fault::Head => line[r.range(0, 2) as usize] = pick_word(r, NO_NUMBERS),
        Fault::Word => {
            let word = if once_in(r, 4) { pick_word(r, &["#", "#c", "0#", "$"]) } else { pick_word(r, WORDS) };
            if once_in(r, 4) { line.push(word) } else { set_coordinate(r, line, word) }
        }
        Fault::Fraction => {
            let word = pick_word(r, FRACTIONS);
            set_coordinate(r, line, word);
        }
        Fault::Kind => line[1] = pick_word(r, KINDS),
        Fault::Limit => line[2] = pick_word(r, LIMITS),
        Fault::Count => miscount(r, line),
        Fault::Far => {
            let word = pick_word(r, FAR);
            set_coordinate(r, line, word);
        }
        Fault::Collapsed => collapse(r, line),
        Fault::Sunk => {
            let id = r.pick(&[before, before, before - 1, 0]);
            line[0] = number(r, id);
        }
        Fault::Cut | Fault::Used | Fault::Block | Fault::Room => {}
    }
}

// The lines as a text, in one of its ways, with lines between them that count for nothing.
fn written(r: &mut Random, lines: &[Line]) -> Vec<u8> {
    let blank = r.pick(&[" ", " ", " ", "\t", "  ", " \t "]);
    let end = r.pick(&["\n", "\n", "\n", "\r\n", " \n", "\t\r\r\n"]);
    let front = r.pick(&["", "", "", "", " ", "\t "]);
    let passed = r.pick(&[3, 6, 1_000]);
    let mut out = String::new();
    for line in lines {
        while once_in(r, passed) {
            out += &format!("{}{}", r.pick(PASSED), end);
        }
        out += &format!("{}{}{}", front, line.join(blank), end);
    }
    while once_in(r, passed) {
        out += &format!("{}{}", r.pick(PASSED), end);
    }
    out.into_bytes()
}

// The end of the last line is missing.
fn cut(r: &mut Random, text: &mut Vec<u8>) {
    if text.is_empty() || once_in(r, 2) {
        text.extend(r.pick(STUBS).bytes());
    } else {
        text.pop();
    }
}

// A call with so many lines, and these faults, each in the line of that place.
fn question(r: &mut Random, count: usize, faults: &[(Fault, usize)]) -> Question {
    let has = |f: Fault| faults.iter().any(|&(g, _)| g == f);
    let held = if has(Fault::Block) || has(Fault::Sunk) { r.pick(&[1, 1, 2, 3]) } else { r.pick(&[0, 0, 0, 1]) };
    let last = r.pick(&[3u32, 5, 40, 4_294_000_000]);
    let (mut lines, ids) = good_lines(r, count, if held > 0 { last as u64 } else { 0 });
    // those that count first are made last, so that they stay
    for &(fault, at) in faults.iter().rev() {
        if at < count {
            let before = if at > 0 { ids[at - 1] } else { last as u64 };
            spoil_line(r, &mut lines[at], fault, before);
        }
    }
    let mut text = written(r, &lines);
    if has(Fault::Cut) {
        cut(r, &mut text);
    }
    let mut buffer = block_bytes(&stored_records(r, held, last));
    if has(Fault::Block) {
        spoil(r, &mut buffer);
    }
    let mut used = buffer.len() as u64;
    let short = faults.iter().find(|f| f.0 == Fault::Room).map(|f| 80 * f.1 + r.pick(&[0, 1, 79]));
    let room = short.unwrap_or(80 * count + r.pick(&[0, 0, 0, 1, 80]));
    buffer.extend((0..room).map(|_| r.next() as u8));
    if has(Fault::Used) {
        let whole = buffer.len() as u64;
        used = r.pick(&[whole + 1, whole + 80, 1 << 32, u64::MAX, u64::MAX - 79, 0, 8, used - 1]);
    }
    Question { text, buffer, used }
}

// Each of these faults alone, at each place of one, two and three lines.
fn alone(r: &mut Random, is_meant: impl Fn(Fault) -> bool, out: &mut Vec<Question>) {
    for fault in FAULTS.iter().copied().filter(|&f| is_meant(f)) {
        for (count, at) in [(1, 0), (2, 0), (2, 1), (3, 0), (3, 1), (3, 2)] {
            for _ in 0..4 {
                out.push(question(r, count, &[(fault, at)]));
            }
        }
    }
}

// Faults of `used` and of the block, which count also where there is nothing to append.
fn of_blocks(r: &mut Random, out: &mut Vec<Question>) {
    for k in 0..120 {
        let fault = if k % 4 == 0 { Fault::Used } else { Fault::Block };
        out.push(question(r, k % 3, &[(fault, 0)]));
    }
}

// Two of these faults each, in one line and in two, the one before the other and behind it.
fn in_pairs(r: &mut Random, are_meant: impl Fn(Fault, Fault) -> bool, out: &mut Vec<Question>) {
    for (k, &f) in FAULTS.iter().enumerate() {
        for &g in FAULTS[k + 1..].iter().filter(|&&g| are_meant(f, g)) {
            for (count, a, b) in [(1, 0, 0), (2, 0, 1), (2, 1, 0), (2, 1, 1), (3, 1, 2), (3, 2, 0)] {
                out.push(question(r, count, &[(f, a), (g, b)]));
            }
        }
    }
}

// Good texts and damaged ones.
fn whole_and_damaged(r: &mut Random, out: &mut Vec<Question>) {
    for k in 0..800 {
        let count = r.pick(&[0, 1, 1, 1, 2, 2, 3]);
        let mut q = question(r, count, &[]);
        for _ in 0..r.pick(&[1, 1, 1, 2]) * (k % 2) {
            q.text = damaged(r, &q.text);
        }
        out.push(q);
    }
}

// Texts without sense.
fn senseless(r: &mut Random, out: &mut Vec<Question>) {
    for _ in 0..80 {
        let mut q = question(r, 0, &[]);
        q.text = (0..r.range(1, 40)).map(|_| r.pick(BYTES)).collect();
        if !once_in(r, 3) {
            q.text.push(b'\n');
        }
        out.push(q);
    }
}

// A text that is read, with lines of several kinds.
const SAMPLE: &str = "# two triangles and a quad\n\n1 6 3\t0 0 +8 0 0 8.0 4 -0 4 4 0 04\r\n \t\r\n  #2 6\n007 06 010 -8 0 8 0 0 16 0 7 8 8 -8 8\n\
    8 9 4 0 0 1 0 2 0 0 1 1 1 2 1 0 2 1 2 2 2.00 \n#";

// Every beginning of the sample, and all of it with its end.
fn beginnings(out: &mut Vec<Question>) {
    let whole = format!("{}\n", SAMPLE).into_bytes();
    let buffer: Vec<u8> = block_bytes(&[]).into_iter().chain((0..240).map(|k| 255 - k as u8)).collect();
    for n in 0..=whole.len() {
        out.push(Question { text: whole[..n].to_vec(), buffer: buffer.clone(), used: 9 });
    }
}

// So many short lines for a block of that many records, the first one with that id; the buffer has room for 800 records.
fn many(r: &mut Random, held: usize, lines: usize, first: usize) -> Question {
    let rows: Vec<String> = (0..lines).map(|k| format!("{} 6 1 0 0 8 0 0 8 4 0 4 4 0 4\n", first + k)).collect();
    let mut buffer = block_bytes(&stored_records(r, held, 4_999));
    let used = buffer.len() as u64;
    buffer.resize(9 + 80 * 800, 0);
    Question { text: rows.concat().into_bytes(), buffer, used }
}

// The beginnings of the sample, calls with and without faults, and blocks that are full or get full.
pub fn questions() -> Vec<Question> {
    let mut r = Random(31_415_926);
    let mut out = Vec::new();
    beginnings(&mut out);
    alone(&mut r, |f| f != Fault::Collapsed, &mut out);
    of_blocks(&mut r, &mut out);
    in_pairs(&mut r, |f, g| f != Fault::Collapsed && g != Fault::Collapsed, &mut out);
    whole_and_damaged(&mut r, &mut out);
    senseless(&mut r, &mut out);
    for (held, lines, first) in [(799, 1, 5_000), (799, 2, 5_000), (800, 1, 5_000), (800, 1, 4_999), (500, 300, 5_000), (500, 301, 5_000)] {
        out.push(many(&mut r, held, lines, first));
    }
    alone(&mut r, |f| f == Fault::Collapsed, &mut out);
    in_pairs(&mut r, |f, g| f == Fault::Collapsed || g == Fault::Collapsed, &mut out);
    out
}
