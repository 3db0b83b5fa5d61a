// Proof sheets, good and damaged, and elements with and without one, from fixed seeds.

use crate::answers::words;
use crate::block::hex;
use crate::element::{code, coordinate_limit, greatest_level, Element, Num};
use crate::sets::{collapse, shaken, touching, Random};
use crate::sheet::{quarters, Cell, HEADER, WHOLE};
use crate::texts::once_in;
use std::collections::HashSet;

const KINDS: [u8; 3] = [6, 8, 9];

// The greatest limit of a triangle that is not slow.
const QUICK: u8 = 5;

// The most room that a line can have.
const MOST_ROOM: usize = 64_000;

// ---- lines for the program `calls`

pub fn check_line(sheet: &[u8], e: &Element) -> String {
    format!("checksheet {} {} {}{}", hex(sheet), e.kind, e.limit, words(&e.coords))
}

pub fn sheet_line(room: usize, e: &Element) -> String {
    format!("sheet {} {} {}{}", room, e.kind, e.limit, words(&e.coords))
}

// The element under another limit.
fn under(e: &Element, limit: u8) -> Element {
    Element { limit, ..e.clone() }
}

// ---- cuttings

fn sheet_of(cutting: &[u8]) -> Vec<u8> {
    [&HEADER[..], cutting].concat()
}

// Where the cell that begins at `at` ends.
fn end(cutting: &[u8], mut at: usize) -> usize {
    let mut to_come = 1;
    while to_come > 0 {
        to_come += 4 * cutting[at] as usize;
        to_come -= 1;
        at += 1;
    }
    at
}

// Where the quarters of the cut cell at `at` begin, and where the last one ends.
fn bounds(cutting: &[u8], at: usize) -> [usize; 5] {
    let mut out = [at + 1; 5];
    for k in 1..5 {
        out[k] = end(cutting, out[k - 1]);
    }
    out
}

// The level of each cell.
fn levels(cutting: &[u8]) -> Vec<u8> {
    let (mut pile, mut out) = (vec![0], Vec::new());
    for &byte in cutting {
        let level = pile.pop().expect("a complete cutting");
        out.push(level);
        if byte == 1 {
            pile.extend([level + 1; 4]);
        }
    }
    out
}

fn depth(cutting: &[u8]) -> u8 {
    levels(cutting).into_iter().max().expect("a cutting has a cell")
}

// All cells of a level.
fn full(level: u8) -> Vec<u8> {
    if level == 0 { vec![0] } else { [vec![1], full(level - 1).repeat(4)].concat() }
}

// The cutting with what stands for the cell at `at` replaced.
fn replaced(cutting: &[u8], at: usize, by: &[u8]) -> Vec<u8> {
    [&cutting[..at], by, &cutting[end(cutting, at)..]].concat()
}

// A place among those at which something holds.
fn place(r: &mut Random, n: usize, fits: impl Fn(usize) -> bool) -> Option<usize> {
    let places: Vec<usize> = (0..n).filter(|&k| fits(k)).collect();
    if places.is_empty() { None } else { Some(r.pick(&places)) }
}

// So many kept cells cut, none deeper than the limit.
fn finer(r: &mut Random, cutting: &[u8], limit: u8, times: usize) -> Vec<u8> {
    let mut out = cutting.to_vec();
    for _ in 0..times {
        let levels = levels(&out);
        match place(r, out.len(), |k| out[k] == 0 && levels[k] < limit) {
            Some(at) => out = replaced(&out, at, &full(1)),
            None => break,
        }
    }
    out
}

// One kept cell cut again and again, down to that level.
fn down_to(r: &mut Random, cutting: &[u8], level: u8) -> Vec<u8> {
    let mut out = cutting.to_vec();
    let mut at = place(r, out.len(), |k| out[k] == 0).expect("a kept cell");
    for _ in levels(&out)[at]..level {
        out = replaced(&out, at, &full(1));
        at += r.range(1, 4) as usize;
    }
    out
}

// ---- valid elements

// A test of a cell's values: the right one, or a wrong one.
type Test = fn(&Element, &[Num]) -> bool;

// A cutting of the cell, no deeper than `left` more levels, whose cells all pass that test: whatever does not pass is cut.
fn passing(e: &Element, (d, x, y): Cell, left: u8, test: Test) -> Option<Vec<u8>> {
    if test(e, &e.cell_values(d, &x, &y)) {
        return Some(vec![0]);
    }
    if left == 0 {
        return None;
    }
    let mut out = vec![1];
    for quarter in quarters(e, (d, x, y)) {
        out.extend(passing(e, quarter, left - 1, test)?);
    }
    Some(out)
}

fn found(e: &Element) -> Option<Vec<u8>> {
    passing(e, WHOLE, e.limit, Element::passes)
}

fn is_valid(e: &Element) -> bool {
    found(e).is_some()
}

// A valid element, its sheet, the level at which it is valid, and one beside it that is not valid, if one is known.
struct Known {
    element: Element,
    sheet: Vec<u8>,
    level: u8,
    beside: Option<Element>,
}

impl Known {
    fn of(element: Element, beside: Option<Element>) -> Option<Known> {
        let cutting = found(&element)?;
        Some(Known { element, sheet: sheet_of(&cutting), level: depth(&cutting), beside })
    }

    fn cutting(&self) -> &[u8] {
        &self.sheet[HEADER.len()..]
    }

    // Whether only one cell is cut at each level.
    fn is_narrow(&self) -> bool {
        self.cutting().len() == 1 + 4 * self.level as usize
    }

    fn greatest(&self) -> u8 {
        greatest_level(self.element.kind)
    }

    // Any limit at which it is valid.
    fn limit(&self, r: &mut Random) -> u8 {
        r.range(self.level as i64, self.greatest() as i64) as u8
    }
}

fn quick(kind: u8) -> u8 {
    greatest_level(kind).min(QUICK)
}

fn any_size(r: &mut Random, kind: u8) -> i64 {
    if kind == 6 { r.pick(&[40, 400, 4_000, 40_000]) } else { r.pick(&[40, 200, 800, 1_300]) }
}

// An element whose node k goes away by (x, y), in steps.
struct Way {
    start: Element,
    k: usize,
    by: (i64, i64),
    steps: i64,
}

impl Way {
    fn at(&self, t: i64) -> Element {
        let (mut e, most) = (self.start.clone(), coordinate_limit(self.start.kind));
        for (c, d) in [(2 * self.k, self.by.0), (2 * self.k + 1, self.by.1)] {
            e.coords[c] = (e.coords[c] + d * t / self.steps).clamp(-most, most);
        }
        e
    }

    // A step at which it is valid, when at the next one it is not; if the way leads from good to bad.
    fn last_good(&self) -> Option<i64> {
        let (mut good, mut bad) = (0, self.steps);
        if !is_valid(&self.at(good)) || is_valid(&self.at(bad)) {
            return None;
        }
        while bad - good > 1 {
            let t = (good + bad) / 2;
            if is_valid(&self.at(t)) { good = t } else { bad = t }
        }
        Some(good)
    }
}

// A valid element that is so no more a little further on its way.
fn turning(r: &mut Random, kind: u8) -> Option<Known> {
    let size = any_size(r, kind);
    let start = Element { kind, limit: quick(kind), coords: shaken(r, kind, size, size / 10) };
    let by = (r.range(-size, size), r.range(-size, size));
    let way = Way { start, k: r.range(0, kind as i64 - 1) as usize, by, steps: by.0.abs().max(by.1.abs()) + 1 };
    let good = way.last_good()?;
    let back = r.pick(&[0, 0, 0, 0, 1, 2, 4, 9, 30]);
    Known::of(way.at((good - back).max(0)), Some(way.at(good + 1)))
}

// ---- a valley

// The nodes of a quad numbered from its next corner, and those of a triangle.
fn turned(kind: u8, points: &[(i64, i64)]) -> Vec<(i64, i64)> {
    let order: &[usize] = match kind {
        6 => &[1, 2, 0, 4, 5, 3],
        8 => &[2, 4, 7, 1, 6, 0, 3, 5],
        _ => &[2, 5, 8, 1, 4, 7, 0, 3, 6],
    };
    order.iter().map(|&k| points[k]).collect()
}

// The nodes of an element in half steps: of i along ξ or u, and of j along η or v.
pub fn steps(kind: u8) -> &'static [(i64, i64)] {
    match kind {
        6 => &[(0, 0), (2, 0), (0, 2), (1, 0), (1, 1), (0, 1)],
        8 => &[(0, 0), (1, 0), (2, 0), (0, 1), (2, 1), (0, 2), (1, 2), (2, 2)],
        _ => &[(0, 0), (1, 0), (2, 0), (0, 1), (1, 1), (2, 1), (0, 2), (1, 2), (2, 2)],
    }
}

// An element whose J is nearly zero along a line across it: x = (ξ - a)²/2 + δη and y = η(ξ - a) - κξ have J = (ξ - a)² + δ(κ - η). Here
// a is a 64th, κ is k/64, δ is d/4096, and all is multiplied by s and rounded.
fn valley(r: &mut Random, kind: u8) -> Option<Known> {
    let s = coordinate_limit(kind) * r.range(20, 38) / 64;
    let (a, k, d) = (r.range(8, 56), r.range(66, 100), r.range(4, 200));
    let point = |&(i, j): &(i64, i64)| {
        let l = 32 * i - a;
        (s * (l * l + d * j) / 8_192, s * (j * l - k * i) / 128)
    };
    let mut points: Vec<(i64, i64)> = steps(kind).iter().map(point).collect();
    for _ in 0..r.range(0, 3) {
        points = turned(kind, &points);
    }
    let coords = points.iter().flat_map(|&(x, y)| [x, y]).collect();
    Known::of(Element { kind, limit: quick(kind), coords }, None)
}

// A valley with many cells.
fn is_wide(known: &Known) -> bool {
    known.sheet.len() > 60 && known.sheet.len() < 200
}

// ---- the stock

// How many elements of a kind there are at a level, and how many with a valley.
const EACH: usize = 3;
const VALLEYS: usize = 2;

// Triangles that are valid at the levels 6 to 10 and not before, as `touching` has them.
const DEEP: [(i64, i64, i64); 5] = [(2032, 33, 1026), (1456, 6, -365), (1258, 28, 744), (495, 17, 366), (1262, 52, 1022)];

fn deep_triangles() -> Vec<Known> {
    let element = |&(k, e, x): &(i64, i64, i64)| Element { kind: 6, limit: 10, coords: touching(k, e, x) };
    DEEP.iter().map(|t| Known::of(element(t), None).expect("a valid triangle")).collect()
}

// Elements of each kind that are valid at each level that is not slow, and some with a valley. Those of a level in which only one cell is
// cut at each level come first there, or not at all.
fn stock(r: &mut Random) -> Vec<Known> {
    let mut out: Vec<Known> = Vec::new();
    for kind in KINDS {
        let alike = |of: &[Known], level: u8| of.iter().filter(|k| k.element.kind == kind && k.level == level).count();
        while (0..=quick(kind)).any(|level| alike(&out, level) < EACH) {
            if let Some(known) = turning(r, kind).filter(|k| alike(&out, k.level) < EACH) {
                if known.level < 2 || !known.is_narrow() || alike(&out, known.level) == 0 {
                    out.push(known);
                }
            }
        }
        out.extend(std::iter::repeat_with(|| valley(r, kind)).flatten().filter(is_wide).take(VALLEYS));
    }
    out
}

fn one<'a>(r: &mut Random, stock: &'a [Known]) -> &'a Known {
    &stock[(r.next() % stock.len() as u64) as usize]
}

// ---- damage

#[derive(Clone, Copy)]
enum Damage {
    Altered,
    OtherCell,
    Missing,
    CutOff,
    Behind,
    Mark,
    Version,
    HeaderAlone,
    Empty,
    Reordered,
    Coarser,
    ThreeQuarters,
    LevelByLevel,
    Exchanged,
}

const DAMAGES: [Damage; 14] = {
    use self::Damage::*;
    [
        Altered, OtherCell, Missing, CutOff, Behind, Mark, Version, HeaderAlone, Empty, Reordered, Coarser, ThreeQuarters, LevelByLevel,
        Exchanged,
    ]
};

// A byte of the sheet from `first` on set to another one.
fn altered(r: &mut Random, sheet: &[u8], first: usize) -> Vec<u8> {
    let mut out = sheet.to_vec();
    let at = r.range(first as i64, sheet.len() as i64 - 1) as usize;
    let byte = r.pick(&[0, 1, 2, 255]);
    out[at] = if byte != out[at] { byte } else { byte ^ 1 };
    out
}

fn without(sheet: &[u8], at: usize) -> Vec<u8> {
    [&sheet[..at], &sheet[at + 1..]].concat()
}

// Which quarters are exchanged, most often the second and the third.
const EXCHANGES: [(usize, usize); 8] = [(1, 2), (1, 2), (1, 2), (0, 1), (0, 2), (0, 3), (1, 3), (2, 3)];

// Two quarters of a cut cell exchanged, such as are not cut alike.
fn reordered(r: &mut Random, cutting: &[u8]) -> Option<Vec<u8>> {
    let quarter = |at: usize, k: usize| &cutting[bounds(cutting, at)[k]..bounds(cutting, at)[k + 1]];
    let places = EXCHANGES.len() * cutting.len();
    let found = place(r, places, |n| {
        let (at, (k, l)) = (n / EXCHANGES.len(), EXCHANGES[n % EXCHANGES.len()]);
        cutting[at] == 1 && quarter(at, k) != quarter(at, l)
    })?;
    let (at, (k, l)) = (found / EXCHANGES.len(), EXCHANGES[found % EXCHANGES.len()]);
    let mut order = [0, 1, 2, 3];
    order.swap(k, l);
    let quarters = order.iter().map(|&k| quarter(at, k)).collect::<Vec<_>>().concat();
    Some(replaced(cutting, at, &[vec![1], quarters].concat()))
}

// A cut cell kept.
fn coarser(r: &mut Random, cutting: &[u8]) -> Option<Vec<u8>> {
    let at = place(r, cutting.len(), |at| cutting[at] == 1)?;
    Some(replaced(cutting, at, &[0]))
}

// A cut cell without its last quarter.
fn three_quarters(r: &mut Random, cutting: &[u8]) -> Option<Vec<u8>> {
    let at = place(r, cutting.len(), |at| cutting[at] == 1)?;
    Some(replaced(cutting, at, &cutting[at..bounds(cutting, at)[3]]))
}

// The cells of each level before those of the next.
fn level_by_level(cutting: &[u8]) -> Vec<u8> {
    let levels = levels(cutting);
    let mut order: Vec<usize> = (0..cutting.len()).collect();
    order.sort_by_key(|&k| levels[k]);
    order.into_iter().map(|k| cutting[k]).collect()
}

// The sheet with this damage, unless it has nothing to be damaged so.
fn damaged(r: &mut Random, sheet: &[u8], damage: Damage) -> Option<Vec<u8>> {
    let (head, cutting) = (HEADER.len(), &sheet[HEADER.len()..]);
    Some(match damage {
        Damage::Altered => altered(r, sheet, 0),
        Damage::OtherCell => altered(r, sheet, head),
        Damage::Missing => without(sheet, r.range(0, sheet.len() as i64 - 1) as usize),
        Damage::CutOff => sheet[..r.range(0, sheet.len() as i64 - 1) as usize].to_vec(),
        Damage::Behind => {
            let more: &[u8] = r.pick(&[&[0], &[0], &[1], &[10], &[255], &[0, 0, 0, 0], &[1, 0, 0, 0, 0], &HEADER]);
            [sheet, more].concat()
        }
        Damage::Mark => [&r.pick(&[*b"CEL", *b"cps", *b"CPs", *b"SPC", *b"CQS", *b"\0\0\0"]), &sheet[3..]].concat(),
        Damage::Version => [&sheet[..3], &r.pick(&[[0, 1], [0, 1], [0, 0], [2, 0], [1, 1], [255, 255]]), cutting].concat(),
        Damage::HeaderAlone => HEADER.to_vec(),
        Damage::Empty => Vec::new(),
        Damage::Reordered => sheet_of(&reordered(r, cutting)?),
        Damage::Coarser => sheet_of(&coarser(r, cutting)?),
        Damage::ThreeQuarters => sheet_of(&three_quarters(r, cutting)?),
        Damage::LevelByLevel => sheet_of(&level_by_level(cutting)),
        Damage::Exchanged => sheet_of(&cutting.iter().map(|b| 1 - b).collect::<Vec<u8>>()),
    })
}

// ---- questions

// Sheets to be written: with room and without, at each sort of limit.
fn written(r: &mut Random, stock: &[Known], out: &mut Vec<String>) {
    for known in stock {
        let length = known.sheet.len();
        let rooms = [length, length, length - 1, r.pick(&[0, 1, 5]), length + r.range(1, 9) as usize, r.pick(&[4_096, MOST_ROOM])];
        for room in rooms {
            let limit = known.limit(r);
            out.push(sheet_line(room, &under(&known.element, limit)));
        }
        if known.level > 0 {
            out.push(sheet_line(r.pick(&[0, length - 1, length, 4_096]), &under(&known.element, known.level - 1)));
        }
    }
    out.push(sheet_line(MOST_ROOM + 1, &stock[0].element));
}

// Sheets that are accepted, at the least limit and at others, and what is a level too deep.
fn accepted(r: &mut Random, stock: &[Known], out: &mut Vec<String>) {
    for known in stock {
        let e = &known.element;
        out.push(check_line(&known.sheet, &under(e, known.level)));
        out.push(check_line(&known.sheet, &under(e, known.limit(r))));
        if known.level > 0 {
            out.push(check_line(&known.sheet, &under(e, known.level - 1)));
        }
        let (times, limit) = (r.range(1, 9) as usize, known.limit(r));
        let down = known.greatest() + r.pick(&[0, 0, 1]);
        for cutting in [finer(r, known.cutting(), limit, times), down_to(r, known.cutting(), down)] {
            let deepest = depth(&cutting);
            out.push(check_line(&sheet_of(&cutting), &under(e, deepest.min(known.greatest()))));
            if deepest > 0 {
                out.push(check_line(&sheet_of(&cutting), &under(e, deepest - 1)));
            }
        }
    }
    // all cells of a level
    for kind in KINDS {
        for known in stock.iter().filter(|k| k.element.kind == kind).step_by(EACH + 1) {
            for level in [known.level.max(1) - 1, known.level, known.level.min(3) + 1] {
                out.push(check_line(&sheet_of(&full(level)), &under(&known.element, quick(kind).min(4))));
            }
        }
    }
}

// Sheets with each damage, of the least cutting and now and then of a finer one.
fn spoiled(r: &mut Random, stock: &[Known], out: &mut Vec<String>) {
    for (n, known) in stock.iter().enumerate() {
        let often = [Damage::OtherCell, Damage::Reordered, Damage::Coarser];
        let some = (0..4).map(|k| DAMAGES[(4 * n + k) % DAMAGES.len()]);
        for damage in often.iter().copied().chain(some) {
            let sheet = if once_in(r, 4) { sheet_of(&finer(r, known.cutting(), known.greatest(), 2)) } else { known.sheet.clone() };
            if let Some(sheet) = damaged(r, &sheet, damage) {
                out.push(check_line(&sheet, &under(&known.element, known.limit(r))));
            }
        }
    }
}

// Sheets of other elements: of one beside it, of one at the same level, of any.
fn foreign(r: &mut Random, stock: &[Known], out: &mut Vec<String>) {
    for known in stock {
        if let Some(beside) = &known.beside {
            out.push(check_line(&known.sheet, &under(beside, known.limit(r))));
            out.push(check_line(&sheet_of(&finer(r, known.cutting(), quick(beside.kind), 4)), beside));
            out.push(sheet_line(r.pick(&[0, known.sheet.len(), 4_096]), beside));
        }
        let alike: Vec<&Known> = stock.iter().filter(|k| k.element.kind == known.element.kind && k.level == known.level).collect();
        out.push(check_line(&r.pick(&alike).sheet, &under(&known.element, known.limit(r))));
        out.push(check_line(&one(r, stock).sheet, &under(&known.element, known.limit(r))));
    }
}

// The element's own sheet, or what may be one, and the call that writes it.
pub fn asked(r: &mut Random, e: &Element, out: &mut Vec<String>) {
    let sheet = sheet_of(&found(e).unwrap_or_else(|| full(r.range(0, e.limit.min(2) as i64) as u8)));
    let length = sheet.len();
    out.push(sheet_line(r.pick(&[length, length, length - 1, 0, 4_096]), e));
    out.push(check_line(&sheet, e));
}

// Tiny elements, whose values are often zero.
fn tiny(r: &mut Random, out: &mut Vec<String>) {
    for n in 0..45 {
        let kind = KINDS[n % 3];
        let (size, limit) = (r.pick(&[2, 3, 4, 6]), r.range(0, quick(kind).min(3) as i64) as u8);
        let e = Element { kind, limit, coords: shaken(r, kind, size, 1) };
        asked(r, &e, out);
        out.push(check_line(&sheet_of(&[0]), &e));
    }
}

// An element with whole numbers so small that values are often zero.
fn small(r: &mut Random, kind: u8) -> Element {
    let (size, noise, limit) = (r.pick(&[4, 6, 8, 16]), r.pick(&[1, 2, 3, 5]), r.range(0, 3) as u8);
    Element { kind, limit, coords: shaken(r, kind, size, noise) }
}

// A cutting that is wrong by a zero at a corner alone, or right and with a zero off the corners.
fn with_zero(e: &Element, at_corner: bool) -> Option<Vec<u8>> {
    let right = found(e);
    if at_corner {
        return if right.is_none() { passing(e, WHOLE, e.limit, |_, v| v.iter().all(|&z| z >= 0)) } else { None };
    }
    right.filter(|t| passing(e, WHOLE, e.limit, |_, v| v.iter().all(|&z| z > 0)).as_ref() != Some(t))
}

// Zeros at corners and elsewhere, in the whole element and in its quarters.
fn zeros(r: &mut Random, out: &mut Vec<String>) {
    for n in 0..36 {
        let (kind, at_corner, cut) = (KINDS[n % 3], n / 3 % 2 == 0, n / 6 % 2 == 1);
        let (e, cutting) = std::iter::repeat_with(|| small(r, kind))
            .filter_map(|e| with_zero(&e, at_corner).map(|t| (e, t)))
            .find(|(_, t)| (t.len() > 1) == cut)
            .expect("one of each sort");
        out.push(check_line(&sheet_of(&cutting), &e));
        out.push(sheet_line(4_096, &e));
    }
}

// An element as large as can be, its inner nodes and some others moved.
fn largest(r: &mut Random, kind: u8) -> Element {
    let most = coordinate_limit(kind);
    let mut coords = Vec::new();
    for &(x, y) in steps(kind) {
        for &place in &[x, y] {
            let off = r.pick(&[0, 0, 0, 1, -1, most / 8, -most / 8, most / 3, -most / 3]);
            coords.push(((place - 1) * most + off).clamp(-most, most));
        }
    }
    Element { kind, limit: r.range(0, quick(kind) as i64) as u8, coords }
}

// Coordinates at the limits, valid and not.
fn outermost(r: &mut Random, out: &mut Vec<String>) {
    for n in 0..60 {
        let kind = KINDS[n % 3];
        let wanted = n % 5 > 0;
        let e = std::iter::repeat_with(|| largest(r, kind)).find(|e| is_valid(e) == wanted).expect("one of each sort");
        asked(r, &e, out);
    }
}

// The codes of the faults of a call in the order in which they count, 5 for the room; 21 stands between 4 and 20.
const FAULTS: [u8; 6] = [1, 2, 3, 4, 20, 5];

// That one of them, and any of those behind it.
fn chosen(r: &mut Random, first: usize) -> Vec<u8> {
    let others = r.next();
    (first..FAULTS.len()).filter(|&k| k == first || others >> k & 1 == 1).map(|k| FAULTS[k]).collect()
}

// A call of each with these faults.
fn faulty(r: &mut Random, stock: &[Known], faults: &[u8], out: &mut Vec<String>) {
    let has = |fault: u8| faults.contains(&fault);
    let known = one(r, stock);
    let mut e = under(&known.element, known.limit(r));
    let (mut sheet, mut room) = (known.sheet.clone(), known.sheet.len());
    if has(5) {
        room = r.pick(&[0, room - 1]);
    }
    if has(20) {
        sheet = altered(r, &sheet, 0);
        e = known.beside.clone().unwrap_or(e);
    }
    if has(21) {
        collapse(r, e.kind, &mut e.coords);
    }
    if has(4) {
        let far = coordinate_limit(e.kind) + r.pick(&[1, 1, 2, 100, 65_536]);
        let at = r.range(0, e.coords.len() as i64 - 1) as usize;
        e.coords[at] = r.pick(&[far, far, -far, -far, i32::MAX as i64, i32::MIN as i64]);
    }
    if has(3) {
        let lengths: Vec<usize> = (0..25).filter(|&n| n != e.coords.len()).collect();
        e.coords.resize(r.pick(&lengths), 1);
    }
    if has(2) {
        let greatest = greatest_level(e.kind);
        e.limit = r.pick(&[greatest + 1, greatest + 1, greatest + 2, 255]);
    }
    if has(1) {
        e.kind = r.pick(&[0, 1, 5, 7, 10, 12, 255]);
    }
    out.push(sheet_line(room, &e));
    out.push(check_line(&sheet, &e));
}

// Triangles that need the deepest levels. Those at which writing is slow are asked for once.
fn deep(r: &mut Random, out: &mut Vec<String>) {
    for known in deep_triangles() {
        let (e, level) = (&known.element, known.level);
        out.push(sheet_line(known.sheet.len(), &under(e, level)));
        if level < 8 {
            out.push(sheet_line(known.sheet.len() - 1, e));
            out.push(sheet_line(known.sheet.len(), &under(e, level - 1)));
        }
        for limit in [level - 1, level, 10] {
            out.push(check_line(&known.sheet, &under(e, limit)));
        }
        out.push(check_line(&sheet_of(&finer(r, known.cutting(), 10, 12)), e));
        for damage in [Damage::Altered, Damage::OtherCell, Damage::Reordered, Damage::Reordered, Damage::Coarser, Damage::LevelByLevel] {
            let sheet = damaged(r, &known.sheet, damage).expect("a sheet with cuts");
            out.push(check_line(&sheet, e));
        }
    }
}

pub fn questions() -> Vec<String> {
    let r = &mut Random(20_261_121);
    let stock = stock(r);
    assert!(stock.iter().all(|k| code(&k.element) == 0));
    let mut out = Vec::new();
    written(r, &stock, &mut out);
    accepted(r, &stock, &mut out);
    spoiled(r, &stock, &mut out);
    foreign(r, &stock, &mut out);
    tiny(r, &mut out);
    zeros(r, &mut out);
    outermost(r, &mut out);
    for n in 0..96 {
        let faults = chosen(r, n % FAULTS.len());
        faulty(r, &stock, &faults, &mut out);
    }
    deep(r, &mut out);
    // two corners at one place, alone and with each other fault
    for n in 0..56 {
        let others = chosen(r, n % (FAULTS.len() + 1));
        faulty(r, &stock, &[&[21], &others[..]].concat(), &mut out);
    }
    // no line stands twice
    let mut seen = HashSet::new();
    out.retain(|line| seen.insert(line.clone()));
    out
}
