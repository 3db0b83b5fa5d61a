// A solver's coordinates on a grid of 1/1024, straight from the bits of a float: its sign, its exponent and its digits. No operation on
// floats is used.

use crate::element::RECORD_KINDS;
use std::convert::TryFrom;

// The exponent's field of infinities and of what is no number, and the digits below the leading one.
const ONES: u64 = 2_047;
const DIGITS: u32 = 52;

// The size of a finite float as m · 2^e, and whether it is below zero.
fn parts(bits: u64) -> Option<(bool, u64, i32)> {
    let field = bits >> DIGITS & ONES;
    let digits = bits & ((1 << DIGITS) - 1);
    let negative = bits >> 63 == 1;
    match field {
        ONES => None,
        0 => Some((negative, digits, -1074)),
        _ => Some((negative, digits | 1 << DIGITS, field as i32 - 1075)),
    }
}

// 1024 times the float, where it is a whole number and an i32.
pub fn scaled(bits: u64) -> Option<i32> {
    let (negative, m, e) = parts(bits)?;
    if m == 0 {
        return Some(0);
    }
    // from an exponent of -10 on it is 2^52 or more; below it, so many digits must be zeros
    if e >= -10 || (m.trailing_zeros() as i32) < -10 - e {
        return None;
    }
    let size = (m >> (-10 - e)) as i64;
    i32::try_from(if negative { -size } else { size }).ok()
}

// The bits of the float that is v / 1024; plus zero for zero.
pub fn unscaled(v: i32) -> u64 {
    if v == 0 {
        return 0;
    }
    let size = v.unsigned_abs() as u64;
    let leading = 63 - size.leading_zeros();
    let digits = (size << (DIGITS - leading)) & ((1 << DIGITS) - 1);
    let field = (leading as u64 + 1023) - 10;
    ((v < 0) as u64) << 63 | field << DIGITS | digits
}

// The code of a kind and of how many numbers there are.
fn code(kind: u8, many: usize) -> u8 {
    if !RECORD_KINDS.contains(&kind) {
        return 1;
    }
    if many != 2 * kind as usize { 3 } else { 0 }
}

// What is handed over: the code, or the numbers.
fn handed<T, U>(room: usize, kind: u8, xs: &[T], each: impl Fn(&T) -> Option<U>) -> Result<Vec<U>, u8> {
    match code(kind, xs.len()) {
        0 => {
            let all: Option<Vec<U>> = xs.iter().map(each).collect();
            let all = all.ok_or(23)?;
            if room < all.len() { Err(5) } else { Ok(all) }
        }
        c => Err(c),
    }
}

pub fn scale(room: usize, kind: u8, bits: &[u64]) -> Result<Vec<i32>, u8> {
    handed(room, kind, bits, |&b| scaled(b))
}

pub fn unscale(room: usize, kind: u8, vs: &[i32]) -> Result<Vec<u64>, u8> {
    handed(room, kind, vs, |&v| Some(unscaled(v)))
}
