// Coordinates of a solver, on the grid and off it, and whole numbers to be handed back, from a fixed seed.

use crate::answers::words;
use crate::sets::Random;
use crate::solver::{scaled, unscaled};
use crate::texts::once_in;

// The most room that the program `calls` gives, and the most numbers that it reads.
const MOST: i64 = 64;

// A bit pattern as it is written.
fn pattern(bits: u64) -> String {
    format!("{:016x}", bits)
}

fn scale_line(room: i64, kind: u8, bits: &[u64]) -> String {
    let all: Vec<String> = bits.iter().map(|&b| pattern(b)).collect();
    format!("scale {} {}{}", room, kind, words(&all))
}

fn unscale_line(room: i64, kind: u8, vs: &[i32]) -> String {
    format!("unscale {} {}{}", room, kind, words(vs))
}

// ---- whole numbers

// The ends of i32 and the numbers about powers of two.
fn marked() -> Vec<i32> {
    let mut out = vec![0, i32::MIN, i32::MIN + 1, i32::MAX, i32::MAX - 1];
    for k in 0..31 {
        for near in [-1, 0, 1] {
            let n = (1i64 << k) + near;
            out.extend([n as i32, -n as i32]);
        }
    }
    out
}

// A number of any size.
fn whole(r: &mut Random) -> i32 {
    if once_in(r, 4) {
        return r.pick(&marked());
    }
    (r.next() >> 32) as i32 >> r.range(0, 31)
}

// ---- floats

const SIGN: u64 = 1 << 63;
const INFINITY: u64 = 0x7ff0_0000_0000_0000;

// Floats that stand for no whole number, or only just for one: what is not finite, the ends of the range and their neighbours, the
// smallest and the largest of each sort, minus zero.
fn odd() -> Vec<u64> {
    let range = [unscaled(i32::MIN), unscaled(i32::MAX), 0x4140_0000_0000_0000];
    let sorts = [1, (1 << 52) - 1, 1 << 52, INFINITY - 1, INFINITY, INFINITY + 1, INFINITY | 1 << 51, SIGN - 1];
    let thousandth = [unscaled(1), 0x3f40_0000_0000_0000, 0x3fe0_0000_0000_0000];
    let all: Vec<u64> = range.iter().chain(&sorts).chain(&thousandth).flat_map(|&b| [b - 1, b, b + 1]).collect();
    all.iter().flat_map(|b| [b & !SIGN, b | SIGN]).chain([0, SIGN]).collect()
}

// A float on the grid.
fn good(r: &mut Random) -> u64 {
    match r.range(0, 9) {
        0 => SIGN,
        _ => unscaled(whole(r)),
    }
}

// A float that is off the grid for one reason or another.
fn bad(r: &mut Random) -> u64 {
    let b = match r.range(0, 5) {
        // the last digits of a float on the grid
        0 => good(r) ^ (1 + r.next() % 16),
        // some digit
        1 => good(r) ^ 1 << r.range(0, 51),
        // the exponent
        2 => good(r) ^ 1 << r.range(52, 62),
        // a multiple of a larger or of a smaller power of two
        3 => unscaled(whole(r)).wrapping_sub((1 << 52) * r.range(1, 40) as u64),
        4 => r.pick(&odd()),
        _ => r.next(),
    };
    if scaled(b).is_none() { b } else { bad(r) }
}

// ---- lines

const KINDS: [u8; 3] = [6, 8, 9];

// All marked numbers, a list of twelve after the other.
fn ends(out: &mut Vec<String>) {
    for l in marked().chunks(12).filter(|l| l.len() == 12) {
        out.push(unscale_line(12, 6, l));
        out.push(scale_line(12, 6, &l.iter().map(|&v| unscaled(v)).collect::<Vec<_>>()));
    }
    // each odd float at each place of a list
    for (k, b) in odd().into_iter().enumerate() {
        let kind = KINDS[k % 3];
        let mut l: Vec<u64> = (0..2 * kind as usize).map(|i| unscaled(i as i32 - 7)).collect();
        let place = k % l.len();
        l[place] = b;
        out.push(scale_line(2 * kind as i64, kind, &l));
    }
}

// Lists of every kind, good and bad, with rooms about what is asked.
fn lists(r: &mut Random, out: &mut Vec<String>) {
    for n in 0..900 {
        let kind = KINDS[n % 3];
        let many = 2 * kind as i64;
        let room = match r.range(0, 7) {
            0 => many - 1,
            1 => r.range(0, many - 1),
            2 => MOST,
            3 => many + 1,
            _ => many,
        };
        if n % 3 == 2 || once_in(r, 6) {
            let l: Vec<i32> = (0..many).map(|_| whole(r)).collect();
            out.push(unscale_line(room, kind, &l));
            continue;
        }
        let mut l: Vec<u64> = (0..many).map(|_| good(r)).collect();
        for _ in 0..r.pick(&[0, 0, 0, 1, 1, 2, 5]) {
            let place = r.range(0, many - 1) as usize;
            l[place] = bad(r);
        }
        out.push(scale_line(room, kind, &l));
    }
}

// Kinds that are not taken, and lists that are too short or too long, with room and without, on the grid and off it.
fn refused(r: &mut Random, out: &mut Vec<String>) {
    for kind in [0, 1, 3, 5, 6, 7, 8, 9, 10, 11, 12, 15, 16, 18, 134, 255] {
        for many in [0, 1, 2 * kind as i64 % 65, (2 * kind as i64 + 1).min(MOST), (2 * kind as i64 - 1).clamp(0, MOST), MOST] {
            let room = r.pick(&[0, many, MOST]);
            let floats: Vec<u64> = (0..many).map(|_| if once_in(r, 20) { bad(r) } else { good(r) }).collect();
            let wholes: Vec<i32> = (0..many).map(|_| whole(r)).collect();
            out.push(scale_line(room, kind, &floats));
            out.push(unscale_line(room, kind, &wholes));
        }
    }
}

// Digits in capitals, and numbers as no float is written.
fn spelled(r: &mut Random, out: &mut Vec<String>) {
    for _ in 0..20 {
        let l: Vec<u64> = (0..12).map(|_| good(r)).collect();
        let line = scale_line(12, 6, &l);
        let (head, floats) = line.split_at("scale 12 6".len());
        out.push(format!("{}{}", head, floats.to_uppercase()));
    }
    let twelve = scale_line(12, 6, &[unscaled(7); 11]);
    let digits = ["0", "-", "3f5000000000000", "3f500000000000000", "0x3f500000000000", "3f5000000000000g", "-3f5000000000000", "+3f5000000000000", "3f50.00000000000", "1.0"];
    for word in digits {
        out.push(format!("{} {}", twelve, word));
    }
    let whole = unscale_line(12, 6, &[7; 11]);
    for word in ["-0", "0000000000000000007", "2147483648", "-2147483649", "1.0", "x", "-", "--1"] {
        out.push(format!("{} {}", whole, word));
    }
}

// Lines that are no calls.
fn no_calls(out: &mut Vec<String>) {
    for word in ["scale", "unscale"] {
        for tail in ["", " 12", " 65 6", " -1 6", " x 6", " 12 256", " 12 -6", " 12 x", " 1000000000000000000000 6"] {
            out.push(format!("{}{}", word, tail));
        }
    }
    out.push(scale_line(12, 6, &[0; 65]));
    out.push(unscale_line(12, 6, &[0; 65]));
    out.push("Scale 12 6".to_string());
    out.push("scales 12 6".to_string());
}

pub fn questions() -> Vec<String> {
    let r = &mut Random(20_261_117);
    let mut out = Vec::new();
    ends(&mut out);
    lists(r, &mut out);
    refused(r, &mut out);
    spelled(r, &mut out);
    no_calls(&mut out);
    out
}
