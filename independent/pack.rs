// Texts of records, a line each, straight from the rule of `append_text`: what a line says, and what the call answers.

use crate::block::{append, check_used, Record};
use crate::element::Element;
use crate::words::{is_decimal, whole_coordinate, whole_number, words, Row};

// A fault: its code, the record of the block, the line and the word.
#[derive(Clone, Copy)]
pub struct Fault {
    pub code: u8,
    pub record: usize,
    pub line: usize,
    pub word: usize,
}

// A line that counts: its number, from 1, and its words.
struct Counted<'a> {
    number: usize,
    row: Row<'a>,
}

// The lines that count: they have a word, and the first one does not begin with `#`.
fn counted(text: &[u8]) -> Vec<Counted<'_>> {
    let lines = text.split(|&b| b == b'\n').enumerate();
    let all = lines.map(|(k, line)| Counted { number: k + 1, row: words(line) });
    all.filter(|c| c.row.first().is_some_and(|w| w[0] != b'#')).collect()
}

// The first word of a line that is not of the form, from 1; 0 where there are fewer than three.
fn wrong_word(row: &Row) -> Option<usize> {
    if row.len() < 3 {
        return Some(0);
    }
    let good = |k: usize| if k < 3 { whole_number(row[k]).is_some() } else { is_decimal(row[k]) };
    (0..row.len()).find(|&k| !good(k)).map(|k| k + 1)
}

// The number of the last line, where its end is missing.
fn unended(text: &[u8]) -> Option<usize> {
    let behind = text.split(|&b| b == b'\n').last()?;
    if behind.is_empty() { None } else { Some(text.split(|&b| b == b'\n').count()) }
}

// The first line that is not of the form: code 13. Of the last line only its missing end counts.
fn misformed(text: &[u8], lines: &[Counted]) -> Option<Fault> {
    let cut = unended(text);
    let fault = |line, word| Fault { code: 13, record: 0, line, word };
    for c in lines.iter().filter(|c| Some(c.number) != cut) {
        if let Some(word) = wrong_word(&c.row) {
            return Some(fault(c.number, word));
        }
    }
    cut.map(|line| fault(line, 0))
}

// The first coordinate that is not whole: code 14.
fn fraction(lines: &[Counted]) -> Option<Fault> {
    lines.iter().find_map(|c| {
        let k = c.row.iter().skip(3).position(|w| whole_coordinate(w).is_none())?;
        Some(Fault { code: 14, record: 0, line: c.number, word: k + 4 })
    })
}

// The record of a good line. A kind or a limit beyond a byte is as good as 255, which no kind is and which no kind allows.
fn record(row: &Row) -> Record {
    let number = |k: usize| whole_number(row[k]).expect("a whole number");
    let byte = |k: usize| number(k).min(255) as u8;
    let coords = row[3..].iter().map(|w| whole_coordinate(w).expect("a whole coordinate")).collect();
    Record { id: number(0), element: Element { kind: byte(1), limit: byte(2), coords } }
}

// The word that a code of append speaks of.
fn word_of(code: u8) -> usize {
    match code {
        1 => 2,
        2 => 3,
        10 => 1,
        _ => 0,
    }
}

// A run of appends, a line each, and the new `used`; on a refusal the block may be half written.
fn append_all(lines: &[Counted], b: &mut [u8], used: u64) -> Result<u64, Fault> {
    check_used(b, used).map_err(|(code, record)| Fault { code, record, line: 0, word: 0 })?;
    lines.iter().try_fold(used, |used, c| {
        let told = append(b, used, &record(&c.row));
        told.map_err(|(code, record)| Fault { code, record, line: c.number, word: word_of(code) })
    })
}

// What `append_text` answers where it succeeds: the new `used`, how many were appended, and the buffer; else the fault.
pub fn append_text(text: &[u8], buffer: &[u8], used: u64) -> Result<(u64, usize, Vec<u8>), Fault> {
    let lines = counted(text);
    if let Some(fault) = misformed(text, &lines).or_else(|| fraction(&lines)) {
        return Err(fault);
    }
    let mut after = buffer.to_vec();
    let used = append_all(&lines, &mut after, used)?;
    Ok((used, lines.len(), after))
}
