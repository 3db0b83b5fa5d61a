// The words of a line and what they say, straight from docs/GMSH.md, whose rules are named by their numbers.

pub type Word<'a> = &'a [u8];
pub type Row<'a> = Vec<Word<'a>>;

// The words of a line (G2).
pub fn words(line: &[u8]) -> Row<'_> {
    line.split(|b| [b' ', b'\t', b'\r'].contains(b)).filter(|w| !w.is_empty()).collect()
}

// Whether the word is one or more digits and nothing else.
fn is_digits(w: Word) -> bool {
    !w.is_empty() && w.iter().all(u8::is_ascii_digit)
}

// Digits without the zeros before them; none for zero.
fn significant(digits: Word) -> Word {
    let zeros = digits.iter().take_while(|&&b| b == b'0').count();
    &digits[zeros..]
}

// The value of digits, however many, or `most` where it is more.
fn value_up_to(digits: Word, most: u64) -> u64 {
    let d = significant(digits);
    if d.len() > 18 {
        return most;
    }
    d.iter().fold(0, |n, &b| 10 * n + (b - b'0') as u64).min(most)
}

// A whole number (G10).
pub fn whole_number(w: Word) -> Option<u32> {
    if !is_digits(w) {
        return None;
    }
    let n = value_up_to(w, 1 << 32);
    if n < 1 << 32 { Some(n as u32) } else { None }
}

// Whether there is a minus before the word, and the word behind its sign, if it has one.
fn unsigned(w: Word) -> (bool, Word) {
    match w.first() {
        Some(b'-') => (true, &w[1..]),
        Some(b'+') => (false, &w[1..]),
        _ => (false, w),
    }
}

// A tag (G14).
pub fn is_tag(w: Word) -> bool {
    is_digits(unsigned(w).1)
}

// Whether the word is a decimal number without sign and exponent: D, D., D.D or .D (G16).
fn is_plain_decimal(w: Word) -> bool {
    match w.iter().position(|&b| b == b'.') {
        None => is_digits(w),
        Some(p) => {
            let (before, behind) = (&w[..p], &w[p + 1..]);
            match (before.is_empty(), behind.is_empty()) {
                (true, true) => false,
                (true, false) => is_digits(behind),
                (false, true) => is_digits(before),
                (false, false) => is_digits(before) && is_digits(behind),
            }
        }
    }
}

// Whether the word is a decimal number (G16).
pub fn is_decimal(w: Word) -> bool {
    let w = unsigned(w).1;
    match w.iter().position(|b| [b'e', b'E'].contains(b)) {
        None => is_plain_decimal(w),
        Some(p) => is_plain_decimal(&w[..p]) && is_tag(&w[p + 1..]),
    }
}

// The value of a whole coordinate (G17); 2^32 or -2^32 where it is farther out, both of them beyond i32 as it is.
pub fn whole_coordinate(w: Word) -> Option<i64> {
    let (minus, w) = unsigned(w);
    let digits = w.split(|&b| b == b'.').next()?;
    let behind = &w[digits.len()..];
    let zeros = behind.is_empty() || behind.len() > 1 && behind[1..].iter().all(|&b| b == b'0');
    if !is_digits(digits) || !zeros {
        return None;
    }
    let size = value_up_to(digits, 1 << 32) as i64;
    Some(if minus { -size } else { size })
}
