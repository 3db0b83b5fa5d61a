// Proof sheets, from the words of their request: the sheet of a valid element, and whether a sheet is accepted.

use crate::element::{code, Element};
use crate::verdict::Judged;

pub const HEADER: [u8; 5] = [b'C', b'P', b'S', 1, 0];
const NOT_ACCEPTED: u8 = 20;
const NO_ROOM: u8 = 5;

// A cell by its level and its corners on the grid of that level.
pub type Cell = (u32, [u64; 3], [u64; 3]);

pub const WHOLE: Cell = (0, [0, 1, 0], [0, 0, 1]);

pub fn quarters(e: &Element, (d, x, y): Cell) -> Vec<Cell> {
    e.quarters(x, y).into_iter().map(|(x, y)| (d + 1, x, y)).collect()
}

fn passes(e: &Element, (d, x, y): Cell) -> bool {
    e.cell_passes(d, &x, &y)
}

// ---- writing

// The bytes of the least cutting of this cell, no deeper than `left` more levels, whose cells all pass: both ways are tried.
fn least_cutting(e: &Element, cell: Cell, left: u32) -> Option<Vec<u8>> {
    let keep = if passes(e, cell) { Some(vec![0]) } else { None };
    let cut = if left > 0 { cut_cell(e, cell, left) } else { None };
    keep.into_iter().chain(cut).min_by_key(Vec::len)
}

fn cut_cell(e: &Element, cell: Cell, left: u32) -> Option<Vec<u8>> {
    let parts: Option<Vec<Vec<u8>>> = quarters(e, cell).into_iter().map(|q| least_cutting(e, q, left - 1)).collect();
    Some([vec![1], parts?.concat()].concat())
}

// The sheet of a valid element of which `verdict` accepts all; none where it is not valid.
fn least_sheet(e: &Element) -> Option<Vec<u8>> {
    let v = e.verdict();
    if v.word != "valid" {
        return None;
    }
    let cutting = least_cutting(e, WHOLE, v.level).expect("a passing level is a cutting");
    assert!(cutting.len() as u64 == (4 * v.cells - 1) / 3, "a cutting with another number of cells");
    Some([&HEADER[..], &cutting].concat())
}

// The sheet, or the code.
pub fn write_sheet(room: usize, e: &Element) -> Result<Vec<u8>, u8> {
    match code(e) {
        0 => {}
        c => return Err(c),
    }
    let sheet = least_sheet(e).ok_or(NOT_ACCEPTED)?;
    if sheet.len() <= room { Ok(sheet) } else { Err(NO_ROOM) }
}

// ---- checking

// The cells that are kept, if the bytes are one complete cutting and nothing more, no deeper than the limit. What is still to come is a
// pile of cells, the next one on top.
fn kept_cells(e: &Element, cutting: &[u8]) -> Option<Vec<Cell>> {
    let (mut pile, mut kept) = (vec![WHOLE], Vec::new());
    for byte in cutting {
        let cell = pile.pop()?;
        match byte {
            0 => kept.push(cell),
            1 if cell.0 < e.limit as u32 => pile.extend(quarters(e, cell).into_iter().rev()),
            _ => return None,
        }
    }
    if pile.is_empty() { Some(kept) } else { None }
}

fn is_accepted(e: &Element, sheet: &[u8]) -> bool {
    let kept = sheet.strip_prefix(&HEADER).and_then(|cutting| kept_cells(e, cutting));
    kept.is_some_and(|kept| kept.into_iter().all(|cell| passes(e, cell)))
}

// The code of a check.
pub fn check_sheet(sheet: &[u8], e: &Element) -> u8 {
    match code(e) {
        0 if is_accepted(e, sheet) => 0,
        0 => NOT_ACCEPTED,
        c => c,
    }
}
