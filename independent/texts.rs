// Gmsh texts, good and damaged, and blocks to append them to, from a fixed seed.

use crate::block::{block_bytes, hex, Record};
use crate::element::{collapsed, coordinate_limit, Element, Num};
use crate::mesh::{kind_of, places};
use crate::sets::{of_its_own, outermost, shaken, two_corners, Random};
use crate::words::{whole_coordinate, whole_number};

// A call of `append_mesh`.
pub struct Question {
    pub text: Vec<u8>,
    pub limit: u8,
    pub buffer: Vec<u8>,
    pub used: u64,
}

impl Question {
    // The call as a line for the program `calls`.
    pub fn line(&self) -> String {
        format!("mesh {} {} {} {}", self.limit, self.used, hex(&self.buffer), hex(&self.text))
    }
}

// The rows of a text before it is written, word by word.
struct Draft {
    nodes: Vec<Vec<String>>,
    elements: Vec<Vec<String>>,
}

// Format rows.
const FORMATS: &[&str] = &["2.2 0 8", "2.2 0 8", "2.2 0 8", "2.2 0 8", "2.20 0 8", "2.2000 00 008"];

// Rows of other formats.
const OTHER_FORMATS: &[&str] = &[
    "2.2 0 4", "2.2 1 8", "2.1 0 8", "4.1 0 8", "2 0 8", "2.2 0", "+2.2 0 8", "2.2e0 0 8", "2.02 0 8", "2.2 0 8.0",
];

// Numbers of tags, with their tags.
const TAGS: &[&str] = &["2 1 1", "2 1 1", "0", "1 -7", "3 0 +2 -0", "4 1 6 1 -2", "02 99999999999999999999 5"];

// Types that are passed over.
const OTHERS: &[&str] = &["1", "2", "3", "8", "15", "21", "34", "200", "4294967295"];

// Sections that are passed over.
const SECTIONS: &[&str] = &[
    "$PhysicalNames\n1\n2 1 \"a $Nodes b\"\n$EndPhysicalNames\n",
    "$Comments\n$Nodes\n6\n$End\n$EndComments\n",
    "$\nx $End\n$End\n",
    "$EndNodes\n$EndEndNodes\n",
    "$nodes\n$Endnodes\n",
    "$ParametricNodes\n1\n1 0.5 0 0 1 2\n$EndParametricNodes\n",
    "$Periodic\n\x00 ½ 1e\n\n$EndPeriodic\n",
];

// Numbers that are no whole coordinates.
pub const FRACTIONS: &[&str] = &["5.", ".5", ".0", "0.5", "1e3", "0e0", "5.0e0", "-1.8e-15", "+.5E+2", "1.000000001", "00.10", "1E-0"];

// Whole coordinates outside some limit.
const FAR: &[&str] = &[
    "2049", "-2049", "+2049.0", "65537", "-65537", "65536.0", "2147483647", "-2147483648", "2147483648", "-2147483649", "4294967296",
    "4294967297.000", "18446744073709551617", "-99999999999999999999999999999999999999999",
];

// Words that are no numbers.
pub const WORDS: &[&str] = &[
    "nan", "-inf", "-", "+", ".", "-.", "e5", ".e1", "1e", "1e+", "1e5.0", "0x1", "1_0", "1,5", "1d3", "--1", "+-1", "5-", "1.5.2", "½",
];

// Numbers that no node, no element and no type has.
const BEYOND: &[&str] = &["0", "000", "4294967296", "4294967305", "8589934591", "18446744073709551617", "-1", "+1", "1.0"];

// Words for any place.
const NASTY: &[&str] = &[
    "0", "-1", "+1", "00", "007", "9", "10", "16", "1.0", "1e0", "nan", "inf", "0x1", "1_0", "1,5", "-", ".", "+", "1e", "--1", "1.5.2",
    "4294967295", "4294967296", "4294967297", "18446744073709551617", "$", "$End", "$Nodes", "$EndNodes", "$Elements", "$EndElements",
    "$MeshFormat", "$EndMeshFormat", "2.2", "2.1", "4.1", "$X", "\x0b", "1\x0c", "1\x00", "\u{a0}", "\u{feff}", "½", "1 2", "1\n2", "\n",
];

// Bytes for any place.
const BYTES: &[u8] = b" \t\r\n\n0123456789+-.eE$EndN\x00\x0b\x0c\x1a\xa0\xff";

// One of the words.
pub fn pick_word(r: &mut Random, of: &[&str]) -> String {
    r.pick(of).to_string()
}

// Whether something happens that does once in n times.
pub fn once_in(r: &mut Random, n: u64) -> bool {
    r.next() % n == 0
}

// A place in the list.
fn place<T>(r: &mut Random, of: &[T]) -> usize {
    (r.next() % of.len() as u64) as usize
}

// The list in another order.
fn shuffle<T>(r: &mut Random, l: &mut [T]) {
    for k in (1..l.len()).rev() {
        l.swap(k, (r.next() % (k as u64 + 1)) as usize);
    }
}

// A whole coordinate, in one of its ways.
pub fn coordinate(r: &mut Random, x: Num) -> String {
    let plus = if x == 0 { r.pick(&["", "", "-", "+"]) } else { r.pick(&["", "", "", "", "+"]) };
    let sign = if x < 0 { "-" } else { plus };
    format!("{}{}{}{}", sign, r.pick(&["", "", "", "", "", "00"]), x.unsigned_abs(), r.pick(&["", "", "", "", ".0", ".000"]))
}

// A whole coordinate that is written already, in one of its ways.
pub fn rewritten(r: &mut Random, word: &str) -> String {
    coordinate(r, whole_coordinate(word.as_bytes()).expect("a whole coordinate") as Num)
}

// A number, now and then with zeros before it.
pub fn number(r: &mut Random, n: u64) -> String {
    format!("{}{}", r.pick(&["", "", "", "", "", "", "", "0", "0000000000000"]), n)
}

// The coordinates of an element, sometimes at the limit of its kind and then with its corners anywhere.
pub fn coordinates(r: &mut Random, kind: u8) -> Vec<i64> {
    let most = coordinate_limit(kind);
    match r.range(0, 5) {
        0 => outermost(r, kind),
        1 => shaken(r, kind, most / 2, most / 12),
        _ => shaken(r, kind, 40, 5),
    }
}

// The type of Gmsh that becomes a kind.
pub fn gmsh_type(kind: u8) -> u64 {
    match kind {
        6 => 9,
        8 => 16,
        _ => 10,
    }
}

// Where the node of a row lies.
fn listed_place(row: &[String]) -> [i64; 2] {
    [1, 2].map(|k| whole_coordinate(row[k].as_bytes()).expect("a whole coordinate"))
}

// The nodes of an element in the order of Gmsh, each by its number and its row; the rows from `first` on are its own. While two corners are
// at one place, the nodes come in another order, and x and y of a row are exchanged.
fn uncollapse(kind: u8, nodes: &mut [(String, usize)], rows: &mut [Vec<String>], first: usize) {
    let coords = |nodes: &[(String, usize)], rows: &[Vec<String>]| -> Vec<i64> {
        places(kind).iter().flat_map(|&p| listed_place(&rows[nodes[p].1])).collect()
    };
    let r = &mut of_its_own(&coords(nodes, rows));
    while collapsed(kind, &coords(nodes, rows)) {
        shuffle(r, nodes);
        let at = place(r, &rows[first..]);
        rows[first + at].swap(1, 2);
    }
}

// An element row of ours, its nodes new or, sometimes, one of those before.
fn add_ours(r: &mut Random, d: &mut Draft, id: u64, kind: u8, base: u64, step: u64) {
    let at = coordinates(r, kind);
    let (first, mut own) = (d.nodes.len(), vec![(String::new(), 0); kind as usize]);
    for (k, &p) in places(kind).iter().enumerate() {
        if !d.nodes.is_empty() && once_in(r, 12) {
            let listed = place(r, &d.nodes);
            own[p] = (d.nodes[listed][0].clone(), listed);
            continue;
        }
        let n = base + step * d.nodes.len() as u64;
        own[p] = (number(r, n), d.nodes.len());
        let z = pick_word(r, &["0", "0", "0", "0", "0", "-0", "+0", "0.0", "-0.000", "000"]);
        d.nodes.push(vec![number(r, n), coordinate(r, at[2 * k] as Num), coordinate(r, at[2 * k + 1] as Num), z]);
    }
    uncollapse(kind, &mut own, &mut d.nodes, first);
    let mut row = vec![number(r, id), number(r, gmsh_type(kind)), pick_word(r, TAGS)];
    row.extend(own.into_iter().map(|(number, _)| number));
    d.elements.push(row);
}

// An element row of another type; its nodes need not be listed.
fn add_other(r: &mut Random, d: &mut Draft) {
    let id = r.range(1, 99) as u64;
    let mut row = vec![number(r, id), pick_word(r, OTHERS), pick_word(r, TAGS)];
    for _ in 0..r.range(1, 4) {
        let n = r.range(1, 12) as u64;
        row.push(number(r, n));
    }
    d.elements.push(row);
}

// Some elements, their numbers above `id`, and their nodes.
fn draft(r: &mut Random, mut id: u64) -> Draft {
    let mut d = Draft { nodes: Vec::new(), elements: Vec::new() };
    let (base, step) = r.pick(&[(1, 1), (1, 1), (1, 1), (40, 3), (4_294_967_000, 7), (900, 1_048_577)]);
    for _ in 0..r.pick(&[0, 1, 1, 1, 1, 2, 2, 3]) {
        let kind = r.pick(&[6, 6, 6, 8, 9]);
        id += r.pick(&[1, 1, 2, 30]);
        add_ours(r, &mut d, id, kind, base, step);
        if once_in(r, 3) {
            add_other(r, &mut d);
        }
    }
    if d.elements.is_empty() && once_in(r, 2) {
        add_other(r, &mut d);
    }
    if once_in(r, 6) {
        // a node that no element of ours has, anywhere
        let far = pick_word(r, FAR);
        d.nodes.push(vec![(base + step * d.nodes.len() as u64).to_string(), far, "7".to_string(), "0".to_string()]);
    }
    if once_in(r, 5) {
        shuffle(r, &mut d.nodes);
    }
    d
}

// The elements of ours that a draft has, by their places, and their kinds.
fn ours(d: &Draft) -> Vec<(usize, u8)> {
    let kind = |row: &[String]| kind_of(whole_number(row[1].as_bytes())?);
    d.elements.iter().enumerate().filter_map(|(k, row)| Some((k, kind(row)?))).collect()
}

// A section of rows behind their count.
fn counted(r: &mut Random, name: &str, rows: &[Vec<String>]) -> String {
    let mut out = format!("${}\n{}\n", name, number(r, rows.len() as u64));
    for row in rows {
        out += &format!("{}\n", row.join(" "));
    }
    out + &format!("$End{}\n", name)
}

// The rows as one section, or as two.
fn divided(r: &mut Random, name: &str, rows: &[Vec<String>]) -> Vec<String> {
    if !once_in(r, 6) {
        return vec![counted(r, name, rows)];
    }
    let at = (r.next() % (rows.len() as u64 + 1)) as usize;
    vec![counted(r, name, &rows[..at]), counted(r, name, &rows[at..])]
}

// Other blanks and line ends, and lines without words.
fn restyled(r: &mut Random, text: &str) -> String {
    let mut out = text.to_string();
    match r.range(0, 15) {
        0 | 1 => out = out.replace('\n', "\r\n"),
        2 => out = out.replace(' ', "\t"),
        3 => out = out.replace(' ', " \t ").replace('\n', " \n"),
        4 => out = out.replace('\n', "\n\n"),
        5 => out = format!(" \n\r\n{}\n\t\n", out),
        6 => out = out.replacen('\n', "\r\r\n   \n", 9),
        7 | 8 => {
            out.pop();
        }
        _ => {}
    }
    out
}

// A draft as a good text.
fn written(r: &mut Random, d: &Draft) -> Vec<u8> {
    let format = format!("$MeshFormat\n{}\n$EndMeshFormat\n", r.pick(FORMATS));
    let (nodes, elements) = (divided(r, "Nodes", &d.nodes), divided(r, "Elements", &d.elements));
    let mut parts: Vec<String> = nodes.into_iter().chain(elements).collect();
    if once_in(r, 3) {
        shuffle(r, &mut parts);
    }
    if once_in(r, 12) {
        parts.push(format.clone());
    }
    parts.insert(0, format);
    if once_in(r, 4) {
        let at = place(r, &parts);
        parts.insert(at, pick_word(r, SECTIONS));
    }
    restyled(r, &parts.concat()).into_bytes()
}

// A coordinate of some node becomes another word.
fn set_coordinate(r: &mut Random, d: &mut Draft, word: String) {
    if !d.nodes.is_empty() {
        let at = place(r, &d.nodes);
        let axis = r.range(1, 2) as usize;
        d.nodes[at][axis] = word;
    }
}

// A node that is not whole or not in the plane.
fn lift(r: &mut Random, d: &mut Draft) {
    let word = pick_word(r, FRACTIONS);
    if !once_in(r, 2) || d.nodes.is_empty() {
        return set_coordinate(r, d, word);
    }
    let at = place(r, &d.nodes);
    d.nodes[at][3] = if once_in(r, 2) { word } else { pick_word(r, &["1", "-1", "00.0010", "5000000000", "-0.5", "+01"]) };
}

// A node that is no longer listed.
fn unlist(r: &mut Random, d: &mut Draft) {
    if d.nodes.is_empty() {
        return;
    }
    let at = place(r, &d.nodes);
    if once_in(r, 2) {
        d.nodes.remove(at);
    } else {
        d.nodes[at][0] = pick_word(r, &["777", "4294967295", "0778", "3333333333"]);
    }
}

// Two corners of an element at one place: the same node, or two nodes.
fn collapse(r: &mut Random, d: &mut Draft) {
    let ours = ours(d);
    if ours.is_empty() {
        return;
    }
    let (at, kind) = r.pick(&ours);
    let (from, to) = two_corners(r, kind);
    let (from, to) = (3 + places(kind)[from], 3 + places(kind)[to]);
    if once_in(r, 2) {
        d.elements[at][to] = d.elements[at][from].clone();
        return;
    }
    let number = |word: &str| whole_number(word.as_bytes());
    let [from, to] = [from, to].map(|k| {
        let listed = d.nodes.iter().position(|row| number(&row[0]) == number(&d.elements[at][k]));
        listed.expect("a node that is listed")
    });
    for axis in [1, 2] {
        d.nodes[to][axis] = rewritten(r, &d.nodes[from][axis]);
    }
}

// An element number that does not rise.
fn sink(r: &mut Random, d: &mut Draft) {
    if d.elements.len() > 1 && once_in(r, 2) {
        d.elements.reverse();
    } else if !d.elements.is_empty() {
        let at = place(r, &d.elements);
        d.elements[at][0] = pick_word(r, &["1", "2", "01", "3"]);
    }
}

// A row with a word that is no number there, or with too few or too many words.
fn misdraw(r: &mut Random, d: &mut Draft) {
    let rows = if once_in(r, 2) { &mut d.nodes } else { &mut d.elements };
    if rows.is_empty() {
        return;
    }
    let at = place(r, rows);
    let row = &mut rows[at];
    let at = place(r, row);
    match r.range(0, 6) {
        0 => row.truncate(row.len() - 1),
        1 => row.truncate(3),
        2 => row.push("1".to_string()),
        3 => row[0] = pick_word(r, BEYOND),
        4 => row[at] = pick_word(r, BEYOND),
        _ => row[at] = pick_word(r, WORDS),
    }
}

// Another format, a count that is not right, a word too many behind a count, a format or a mark, or another section first.
fn misform(r: &mut Random, text: &[u8]) -> Vec<u8> {
    let mut rows: Vec<String> = lines(text).iter().map(|l| format!("{}\n", String::from_utf8_lossy(l).trim())).collect();
    let is_count = |l: &String| l.trim().parse::<u64>().is_ok();
    let what = r.range(0, 5);
    let found: Vec<usize> = (0..rows.len())
        .filter(|&k| match what {
            0 => rows[k].starts_with("$End"),
            1 | 2 => is_count(&rows[k]),
            3 => is_count(&rows[k]) || rows[k].starts_with("2.2"),
            4 => rows[k].starts_with("$"),
            _ => rows[k].starts_with("2.2"),
        })
        .collect();
    if what == 0 {
        rows[..found[1] + 1].rotate_left(found[0] + 1);
        return rows.concat().into_bytes();
    }
    let at = r.pick(&found);
    let row = rows[at].trim().to_string();
    rows[at] = match what {
        1 => format!("{}\n", row.parse::<u64>().unwrap_or(0) + 1),
        2 => format!("{}\n", row.parse::<u64>().unwrap_or(1).saturating_sub(1)),
        4 if once_in(r, 2) => format!("$ {}\n", &row[1..]),
        5 => format!("{}\n", r.pick(OTHER_FORMATS)),
        _ => format!("{} 1\n", row),
    };
    rows.concat().into_bytes()
}

// The lines of a text with their ends.
fn lines(text: &[u8]) -> Vec<Vec<u8>> {
    text.split_inclusive(|&b| b == b'\n').map(|l| l.to_vec()).collect()
}

// A text with a word, a line or some byte of it changed.
pub fn damaged(r: &mut Random, text: &[u8]) -> Vec<u8> {
    let mut out = text.to_vec();
    let mut rows = lines(text);
    if out.is_empty() {
        return out;
    }
    let (at, a, b) = (place(r, &out), place(r, &rows), place(r, &rows));
    match r.range(0, 10) {
        0 => out[at] = r.pick(BYTES),
        1 => {
            out.remove(at);
        }
        2 => out.insert(at, r.pick(BYTES)),
        3 => out[at] = r.next() as u8,
        4 | 5 | 6 => {
            // the word at, or before, that place
            let start = out[..at].iter().rposition(|b| b.is_ascii_whitespace()).map_or(0, |p| p + 1);
            let length = out[start..].iter().position(|b| b.is_ascii_whitespace()).unwrap_or(out.len() - start);
            out.splice(start..start + length, r.pick(NASTY).bytes());
        }
        7 => {
            rows.remove(a);
            return rows.concat();
        }
        8 => {
            rows.insert(b, rows[a].clone());
            return rows.concat();
        }
        9 => {
            rows.swap(a, b);
            return rows.concat();
        }
        _ => out.truncate(at),
    }
    out
}

// Records with rising ids, the last one at most `last`.
pub fn stored_records(r: &mut Random, count: usize, last: u32) -> Vec<Record> {
    let mut out = Vec::new();
    for k in 0..count {
        let kind = r.pick(&[6, 6, 8, 9]);
        let element = Element { kind, limit: r.range(0, 4) as u8, coords: shaken(r, kind, 40, 5) };
        out.push(Record { id: last - (count - 1 - k) as u32, element });
    }
    out
}

// A fault in the block: its head, or its first or last record.
pub fn spoil(r: &mut Random, block: &mut Vec<u8>) {
    let count = (block.len() - 9) / 80;
    if count == 0 || once_in(r, 3) {
        match r.range(0, 5) {
            0 => block.truncate(8),
            1 => block[r.range(0, 2) as usize] ^= 1,
            2 | 3 => block[r.range(3, 4) as usize] ^= r.pick(&[1, 2, 3]),
            4 => block.extend([0; 80]),
            _ => block[r.range(5, 8) as usize] ^= 4,
        }
        return;
    }
    let at = 9 + 80 * r.pick(&[0, count - 1]);
    match r.range(0, 4) {
        0 => block[at + 4] = r.pick(&[0, 5, 7, 10, 255]),
        1 => block[at + 5] = r.pick(&[11, 12, 255]),
        2 => block[at + r.pick(&[6, 7, 79])] = 1,
        3 => block[at + 8 + 4 * r.range(0, 11) as usize + 3] = r.pick(&[1, 127, 128]),
        _ => block[at..at + 4].copy_from_slice(&r.pick(&[0u32, u32::MAX]).to_le_bytes()),
    }
}

// What is wrong with a call, if anything is.
#[derive(Clone, Copy, PartialEq)]
enum Fault {
    Nothing,
    Block,
    Used,
    Room,
    Limit,
    Lifted,
    Unlisted,
    Far,
    Collapsed,
    Sunk,
    Form,
    Damage,
    Joined,
}

// One call with that fault, and perhaps with another one behind or before it.
fn question(r: &mut Random, main: Fault) -> Question {
    use self::Fault::*;
    let mut faults = vec![main];
    if main != Nothing && once_in(r, 3) {
        faults.push(r.pick(&[Block, Block, Used, Room, Limit, Lifted, Unlisted, Far, Sunk]));
    }
    let has = |f: Fault| faults.contains(&f);
    let held = if has(Block) { r.pick(&[0, 1, 1, 2, 2, 3]) } else { r.pick(&[0, 0, 0, 0, 1, 1, 2]) };
    let last = r.pick(&[3, 5, 40]);
    let mut d = draft(r, if held > 0 { last as u64 } else { 0 });
    if has(Collapsed) {
        collapse(r, &mut d);
    }
    if has(Lifted) {
        lift(r, &mut d);
    }
    if has(Unlisted) {
        unlist(r, &mut d);
    }
    if has(Far) {
        let word = pick_word(r, FAR);
        set_coordinate(r, &mut d, word);
    }
    if has(Sunk) {
        sink(r, &mut d);
    }
    let wrong_row = once_in(r, 2);
    if has(Form) && wrong_row {
        misdraw(r, &mut d);
    }
    let mut text = written(r, &d);
    if has(Form) && !wrong_row {
        text = misform(r, &text);
    }
    let mut wanted = ours(&d).len();
    if has(Damage) {
        for _ in 0..r.pick(&[1, 1, 1, 2]) {
            text = damaged(r, &text);
        }
    }
    if has(Joined) {
        let other = draft(r, 60);
        wanted += ours(&other).len();
        let more = written(r, &other);
        text.extend(more);
    }
    let mut block = block_bytes(&stored_records(r, held, last));
    if has(Block) {
        spoil(r, &mut block);
    }
    let mut used = block.len() as u64;
    let room = if has(Room) { r.pick(&[0, 79, 80 * wanted.max(1) - 1]) } else { 80 * wanted + r.pick(&[0, 0, 0, 1, 80]) };
    let mut buffer = block;
    buffer.extend((0..room).map(|_| r.next() as u8));
    if has(Used) {
        let whole = buffer.len() as u64;
        used = r.pick(&[whole + 1, whole + 80, 1 << 32, u64::MAX, u64::MAX - 79, 0, 8, used - 1]);
    }
    let limit = if has(Limit) { r.pick(&[5, 5, 10, 11, 255]) } else { r.pick(&[0, 1, 3, 4]) };
    Question { text, limit, buffer, used }
}

// Whether the call is one of those that are kept.
fn is_short(q: &Question) -> bool {
    q.text.len() < 500 && q.buffer.len() < 400
}

// A text that is read, with sections of several kinds; some beginnings of it are read too.
const SAMPLE: &str = "$MeshFormat\n2.2 0 8\n$EndMeshFormat\n$PhysicalNames\n1\n2 1 \"plate $A\"\n$EndPhysicalNames\n\
    $Nodes\n4\n1 0 0 0\n2 8.0 +0 0\n3 -0 8 0.0\n4 4 1 0\n$EndNodes\n$Elements\n1\n1 8 2 1 1 1 2 4\n$EndElements\r\n\
    $Nodes\n\n2\n5\t4 4 -0\r\n6 0 04 0\n$EndNodes\n$Comments\n$End\n$EndComments\n\
    $Elements\n2\n007 9 3 1 -1 0 1 2 3 4 5 6\n8 15 0 3\n$EndElements\n$ElementData\n0.5 nan\n$EndElementData\n\n\
    $MeshFormat\n2.20 00 08\n$EndMeshFormat\n";

// Every beginning of the sample, and all of it.
fn beginnings() -> Vec<Question> {
    let buffer: Vec<u8> = block_bytes(&[]).into_iter().chain((0..80).map(|k| 255 - k)).collect();
    (0..=SAMPLE.len())
        .map(|n| Question { text: SAMPLE.as_bytes()[..n].to_vec(), limit: 3, buffer: buffer.clone(), used: 9 })
        .collect()
}

// One more record for a block of that many, with no room behind the 800th.
fn nearly_full(r: &mut Random, count: usize) -> Question {
    let mut d = Draft { nodes: Vec::new(), elements: Vec::new() };
    add_ours(r, &mut d, 5_000, 6, 1, 1);
    let text = written(r, &d);
    let mut buffer = block_bytes(&stored_records(r, count, 4_999));
    let used = buffer.len() as u64;
    buffer.resize(9 + 80 * 800, 0);
    Question { text, limit: 2, buffer, used }
}

// The beginnings of the sample, calls with each fault in turn, and two blocks that are full or nearly so.
pub fn questions() -> Vec<Question> {
    use self::Fault::*;
    let faults = [
        Nothing, Nothing, Nothing, Nothing, Block, Block, Block, Used, Room, Limit, Lifted, Unlisted, Far, Sunk, Sunk, Form, Form, Damage,
        Damage, Damage, Damage, Damage, Joined,
    ];
    let mut r = Random(2_216_910);
    let mut out = beginnings();
    while out.len() < 3_000 {
        let q = question(&mut r, faults[out.len() % faults.len()]);
        if is_short(&q) {
            out.push(q);
        }
    }
    out.push(nearly_full(&mut r, 799));
    out.push(nearly_full(&mut r, 800));
    out
}

// Calls with two corners of an element at one place, and perhaps with another fault.
pub fn collapsed_questions() -> Vec<Question> {
    let r = &mut Random(20_261_124);
    std::iter::repeat_with(|| question(r, Fault::Collapsed)).filter(is_short).take(150).collect()
}
