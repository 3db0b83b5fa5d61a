// The verdict level by level, on whatever is judged: a value at each grid point, and the control values of each cell.

use crate::element::{Element, Num};

#[derive(Clone, Debug, PartialEq)]
pub struct Verdict {
    pub word: &'static str,
    pub level: u32,
    pub i: u64,
    pub j: u64,
    pub value: Num,
    pub cells: u64,
}

pub trait Judged {
    // The element whose cells and grid points these are.
    fn element(&self) -> &Element;

    // The value at the grid point (i, j) of level d, at the scale of that level; the point is bad where it is not positive.
    fn grid_value(&self, d: u32, i: u64, j: u64) -> Num;

    // The control values of a cell of level d, at the scale of that level.
    fn cell_values(&self, d: u32, x: &[u64], y: &[u64]) -> Vec<Num>;

    fn cell_passes(&self, d: u32, x: &[u64], y: &[u64]) -> bool {
        self.element().passes(&self.cell_values(d, x, y))
    }

    // The least number of cells in a cutting of this cell, no deeper than `left` more levels, whose cells all pass: both ways are tried.
    fn least(&self, d: u32, left: u32, x: [u64; 3], y: [u64; 3]) -> Option<u64> {
        let keep = if self.cell_passes(d, &x, &y) { Some(1) } else { None };
        let mut cut = None;
        if left > 0 {
            cut = Some(0);
            for (a, b) in self.element().quarters(x, y) {
                let more = self.least(d + 1, left - 1, a, b);
                cut = match (cut, more) {
                    (Some(s), Some(t)) => Some(s + t),
                    _ => None,
                };
            }
        }
        match (keep, cut) {
            (Some(a), Some(b)) => Some(a.min(b)),
            (a, None) => a,
            (None, b) => b,
        }
    }

    // The first bad point of a level by j, then i.
    fn first_bad(&self, d: u32) -> Option<(u64, u64)> {
        let w = 1u64 << d;
        for j in 0..=w {
            for i in 0..=w {
                if self.element().on_grid(d, i, j) && self.grid_value(d, i, j) <= 0 {
                    return Some((i, j));
                }
            }
        }
        None
    }

    // Level by level.
    fn verdict(&self) -> Verdict {
        let (e, mut open) = (self.element(), 0);
        for d in 0..=e.limit as u32 {
            open = e.cells(d).iter().filter(|(x, y)| !self.cell_passes(d, x, y)).count() as u64;
            if open == 0 {
                let cells = self.least(0, d, [0, 1, 0], [0, 0, 1]).expect("a passing level is a cutting");
                return Verdict { word: "valid", level: d, i: 0, j: 0, value: 0, cells };
            }
            if let Some((i, j)) = self.first_bad(d) {
                return Verdict { word: "invalid", level: d, i, j, value: self.grid_value(d, i, j), cells: 0 };
            }
        }
        Verdict { word: "undecided", level: e.limit as u32, i: 0, j: 0, value: 0, cells: open }
    }
}

// The plain verdict: J itself is judged.
impl Judged for Element {
    fn element(&self) -> &Element {
        self
    }

    fn grid_value(&self, d: u32, i: u64, j: u64) -> Num {
        Element::grid_value(self, d, i, j)
    }

    fn cell_values(&self, d: u32, x: &[u64], y: &[u64]) -> Vec<Num> {
        Element::cell_values(self, d, x, y)
    }
}
