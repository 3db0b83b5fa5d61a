// A plain judge, for ./bench: one recursive walk, quarters by explicit sums, the same answers, and no proof. It tests nothing of its
// input but the size. benchmark/judge.c is the same in C, function by function.
//   judge list             reads a block and prints its list, as `verdicts` does
//   judge rounds [N]       reads a block, judges each of its elements N times, 64 unless told, and prints the most cells, as `rounds` does
// Ten-node triangles stand in no block, but in a file of up to 800 records as benchmark/records makes them: 84 bytes, the level limit in
// 32 bits and 20 coordinates.
//   judge tens list        prints for each record `word level i j value cells`, as `calls` does behind its code
//   judge tens rounds [N]  judges each record N times, 64 unless told, and prints the most cells, as `cubic_rounds` does
//   judge tens values [N]  forms the control values of each record so often, and prints how often none was negative, as `cubic_values` does
use std::io::{Read, Write};

#[derive(Clone, Copy)]
enum Word {
    Valid,
    Invalid,
    Undecided,
}

struct Judged {
    word: Word,
    level: u32,
    i: u32,
    j: u32,
    value: i64,
    cells: u32,
}

// What a walk knows: the first bad point, the limit, which a bad point lowers to its level, and the cells that were kept.
#[derive(Default)]
struct State {
    bad: bool,
    level: u32,
    i: u32,
    j: u32,
    value: i64,
    stop: u32,
    deep: u32,
    cells: u32,
    failing: u32,
}

impl State {
    fn kept(&mut self, level: u32) {
        self.cells += 1;
        self.deep = self.deep.max(level);
    }

    fn point(&mut self, value: i64, level: u32, i: u32, j: u32) {
        if value > 0 || (self.bad && (self.level, self.j, self.i) <= (level, j, i)) {
            return;
        }
        (self.bad, self.level, self.i, self.j, self.value, self.stop) = (true, level, i, j, value, level);
    }

    fn told(&self, limit: u32) -> Judged {
        if self.bad {
            return Judged { word: Word::Invalid, level: self.level, i: self.i, j: self.j, value: self.value, cells: 0 };
        }
        if self.failing > 0 {
            return Judged { word: Word::Undecided, level: limit, i: 0, j: 0, value: 0, cells: self.failing };
        }
        Judged { word: Word::Valid, level: self.deep, i: 0, j: 0, value: 0, cells: self.cells }
    }
}

#[derive(Clone, Copy, Default)]
struct Vector {
    x: i64,
    y: i64,
}

fn sub(a: Vector, b: Vector) -> Vector {
    Vector { x: a.x - b.x, y: a.y - b.y }
}

fn det(a: Vector, b: Vector) -> i64 {
    a.x * b.y - a.y * b.x
}

fn node(p: &[i32], k: usize) -> Vector {
    Vector { x: p[2 * k] as i64, y: p[2 * k + 1] as i64 }
}

// ---- triangles
fn twice(a: Vector) -> Vector {
    Vector { x: 2 * a.x, y: 2 * a.y }
}

fn between(m: Vector, a: Vector, b: Vector) -> Vector {
    Vector { x: 4 * m.x - a.x - b.x, y: 4 * m.y - a.y - b.y }
}

fn values6(p: &[i32; 18]) -> [i64; 6] {
    let n: [Vector; 6] = std::array::from_fn(|k| node(p, k));
    let (q0, q1, q2) = (twice(n[0]), twice(n[1]), twice(n[2]));
    let (q01, q12, q02) = (between(n[3], n[0], n[1]), between(n[4], n[1], n[2]), between(n[5], n[0], n[2]));
    let (a0, a1, a2) = (sub(q01, q0), sub(q1, q01), sub(q12, q02));
    let (b0, b1, b2) = (sub(q02, q0), sub(q12, q01), sub(q2, q02));
    [
        2 * det(a0, b0),
        2 * det(a1, b1),
        2 * det(a2, b2),
        det(a0, b1) + det(a1, b0),
        det(a1, b2) + det(a2, b1),
        det(a0, b2) + det(a2, b0),
    ]
}

fn pass6(c: &[i64; 6]) -> bool {
    (c[0] > 0) & (c[1] > 0) & (c[2] > 0) & ((c[3] | c[4] | c[5]) >= 0)
}

fn cut6(c: &[i64; 6]) -> [[i64; 6]; 4] {
    let (e01, e12, e02) = (c[0] + 2 * c[3] + c[1], c[1] + 2 * c[4] + c[2], c[0] + 2 * c[5] + c[2]);
    let m = c[3] + c[4] + c[5];
    let (m0, m1, m2) = (c[0] + m, c[1] + m, c[2] + m);
    [
        [4 * c[0], e01, e02, 2 * (c[0] + c[3]), m0, 2 * (c[0] + c[5])],
        [e01, 4 * c[1], e12, 2 * (c[3] + c[1]), 2 * (c[1] + c[4]), m1],
        [e02, e12, 4 * c[2], m2, 2 * (c[4] + c[2]), 2 * (c[5] + c[2])],
        [e12, e02, e01, m2, m0, m1],
    ]
}

// the cell at (i, j), whose other corners stand d on or back
fn walk6(s: &mut State, c: &[i64; 6], level: u32, i: u32, j: u32, d: u32) {
    if pass6(c) {
        return s.kept(level);
    }
    let (x, y) = (i.wrapping_add(d), j.wrapping_add(d));
    if (c[0] <= 0) | (c[1] <= 0) | (c[2] <= 0) | (s.stop <= level) {
        s.point(c[0], level, i, j);
        s.point(c[1], level, x, j);
        s.point(c[2], level, i, y);
        s.failing += 1;
        return;
    }
    let q = cut6(c);
    walk6(s, &q[0], level + 1, 2 * i, 2 * j, d);
    walk6(s, &q[1], level + 1, i + x, 2 * j, d);
    walk6(s, &q[2], level + 1, 2 * i, j + y, d);
    walk6(s, &q[3], level + 1, i + x, j + y, d.wrapping_neg());
}

// ---- quads
fn values9(p: &[i32; 18], eight: bool) -> [i64; 16] {
    let mut n = [Vector::default(); 9];
    for k in 0..9 {
        n[k] = match (eight, k) {
            (true, 4) => Vector::default(),
            (true, 5..) => node(p, k - 1),
            _ => node(p, k),
        };
    }
    let (kx, ky) = (n[0].x + n[2].x + n[6].x + n[8].x, n[0].y + n[2].y + n[6].y + n[8].y);
    let (ex, ey) = (n[1].x + n[3].x + n[5].x + n[7].x, n[1].y + n[3].y + n[5].y + n[7].y);
    let mut r: [Vector; 9] = std::array::from_fn(|k| twice(twice(n[k])));
    r[1] = twice(between(n[1], n[0], n[2]));
    r[3] = twice(between(n[3], n[0], n[6]));
    r[5] = twice(between(n[5], n[2], n[8]));
    r[7] = twice(between(n[7], n[6], n[8]));
    r[4] = if eight {
        Vector { x: 4 * ex - 3 * kx, y: 4 * ey - 3 * ky }
    } else {
        Vector { x: 16 * n[4].x - 4 * ex + kx, y: 16 * n[4].y - 4 * ey + ky }
    };
    let a: [[Vector; 3]; 2] = std::array::from_fn(|i| std::array::from_fn(|j| sub(r[i + 1 + 3 * j], r[i + 3 * j])));
    let b: [[Vector; 2]; 3] = std::array::from_fn(|i| std::array::from_fn(|j| sub(r[i + 3 * j + 3], r[i + 3 * j])));
    let (two, weight) = ([1, 2, 1], [3, 1, 1, 3]);
    let mut s = [0; 16];
    for i1 in 0..2 {
        for j1 in 0..3 {
            for i2 in 0..3 {
                for j2 in 0..2 {
                    s[i1 + i2 + 4 * (j1 + j2)] += two[i2] * two[j1] * det(a[i1][j1], b[i2][j2]);
                }
            }
        }
    }
    std::array::from_fn(|k| weight[k % 4] * weight[k / 4] * s[k])
}

fn pass9(c: &[i64; 16]) -> bool {
    (c.iter().fold(0, |any, v| any | v) >= 0) & (c[0] > 0) & (c[3] > 0) & (c[12] > 0) & (c[15] > 0)
}

// the halves along a direction: lines stand `line` apart, their values `step`
fn halves(c: &[i64; 16], step: usize, line: usize) -> [[i64; 16]; 2] {
    let mut h = [[0; 16]; 2];
    for k in 0..4 {
        let v = k * line;
        let (x, y, z, w) = (c[v], c[v + step], c[v + 2 * step], c[v + 3 * step]);
        let (xy, yz, zw) = (x + y, y + z, z + w);
        let (xyz, yzw) = (xy + yz, yz + zw);
        let middle = xyz + yzw;
        (h[0][v], h[0][v + step], h[0][v + 2 * step], h[0][v + 3 * step]) = (8 * x, 4 * xy, 2 * xyz, middle);
        (h[1][v], h[1][v + step], h[1][v + 2 * step], h[1][v + 3 * step]) = (middle, 2 * yzw, 4 * zw, 8 * w);
    }
    h
}

fn walk9(s: &mut State, c: &[i64; 16], level: u32, i: u32, j: u32) {
    if pass9(c) {
        return s.kept(level);
    }
    if (c[0] <= 0) | (c[3] <= 0) | (c[12] <= 0) | (c[15] <= 0) | (s.stop <= level) {
        s.point(c[0], level, i, j);
        s.point(c[3], level, i + 1, j);
        s.point(c[12], level, i, j + 1);
        s.point(c[15], level, i + 1, j + 1);
        s.failing += 1;
        return;
    }
    let u = halves(c, 1, 4);
    let (low, high) = (halves(&u[0], 4, 1), halves(&u[1], 4, 1));
    walk9(s, &low[0], level + 1, 2 * i, 2 * j);
    walk9(s, &high[0], level + 1, 2 * i + 1, 2 * j);
    walk9(s, &low[1], level + 1, 2 * i, 2 * j + 1);
    walk9(s, &high[1], level + 1, 2 * i + 1, 2 * j + 1);
}

// ---- ten-node triangles: control points and values (I, J, K) stand by rising K, then by rising J

// twelve times the control point next to a on the edge from a to b with the nodes m and n
fn beside(a: Vector, m: Vector, n: Vector, b: Vector) -> Vector {
    Vector { x: 36 * m.x - 10 * a.x - 18 * n.x + 4 * b.x, y: 36 * m.y - 10 * a.y - 18 * n.y + 4 * b.y }
}

fn twelve(a: Vector) -> Vector {
    Vector { x: 12 * a.x, y: 12 * a.y }
}

fn values10(p: &[i32; 20]) -> [i64; 15] {
    let n: [Vector; 10] = std::array::from_fn(|k| node(p, k));
    let (kx, ky) = (n[0].x + n[1].x + n[2].x, n[0].y + n[1].y + n[2].y);
    let (mut ex, mut ey) = (0, 0);
    for k in 3..9 {
        ex += n[k].x;
        ey += n[k].y;
    }
    let r = [
        twelve(n[0]),
        beside(n[0], n[3], n[4], n[1]),
        beside(n[1], n[4], n[3], n[0]),
        twelve(n[1]),
        beside(n[0], n[8], n[7], n[2]),
        Vector { x: 54 * n[9].x + 4 * kx - 9 * ex, y: 54 * n[9].y + 4 * ky - 9 * ey },
        beside(n[1], n[5], n[6], n[2]),
        beside(n[2], n[7], n[8], n[0]),
        beside(n[2], n[6], n[5], n[1]),
        twelve(n[2]),
    ];
    // for the six (i, j, k) with the sum 2: where the points (i + 1, j, k) and (i, j, k + 1) stand, where the values do whose degrees are
    // the sums of two of them, and 2!/(i!j!k!)
    const FROM: [usize; 6] = [0, 1, 2, 4, 5, 7];
    const UP: [usize; 6] = [4, 5, 6, 7, 8, 9];
    const PLACE: [[usize; 6]; 6] = [
        [0, 1, 2, 5, 6, 9],
        [1, 2, 3, 6, 7, 10],
        [2, 3, 4, 7, 8, 11],
        [5, 6, 7, 9, 10, 12],
        [6, 7, 8, 10, 11, 13],
        [9, 10, 11, 12, 13, 14],
    ];
    const TWO: [i64; 6] = [1, 2, 1, 2, 2, 1];
    const WEIGHT: [i64; 15] = [12, 3, 2, 3, 12, 3, 1, 1, 3, 2, 1, 2, 3, 3, 12];
    let a: [Vector; 6] = std::array::from_fn(|k| sub(r[FROM[k] + 1], r[FROM[k]]));
    let b: [Vector; 6] = std::array::from_fn(|k| sub(r[UP[k]], r[FROM[k]]));
    let mut s = [0; 15];
    for k1 in 0..6 {
        for k2 in 0..6 {
            s[PLACE[k1][k2]] += TWO[k1] * TWO[k2] * det(a[k1], b[k2]);
        }
    }
    std::array::from_fn(|k| WEIGHT[k] * s[k])
}

fn none_negative(c: &[i64; 15]) -> bool {
    c.iter().fold(0, |any, v| any | v) >= 0
}

fn pass10(c: &[i64; 15]) -> bool {
    none_negative(c) & (c[0] > 0) & (c[4] > 0) & (c[14] > 0)
}

// The sums of a line of two to five values by Pascal's rule: low[k] of the first k + 1 of them, high[k] of the last.
struct Sums {
    low: [i64; 5],
    high: [i64; 5],
}

fn sums2(a: i64, b: i64) -> Sums {
    Sums { low: [a, a + b, 0, 0, 0], high: [b, a + b, 0, 0, 0] }
}

fn sums3(a: i64, b: i64, c: i64) -> Sums {
    let (ab, bc) = (a + b, b + c);
    let all = ab + bc;
    Sums { low: [a, ab, all, 0, 0], high: [c, bc, all, 0, 0] }
}

fn sums4(a: i64, b: i64, c: i64, d: i64) -> Sums {
    let (ab, bc, cd) = (a + b, b + c, c + d);
    let (abc, bcd) = (ab + bc, bc + cd);
    let all = abc + bcd;
    Sums { low: [a, ab, abc, all, 0], high: [d, cd, bcd, all, 0] }
}

fn sums5(a: i64, b: i64, c: i64, d: i64, e: i64) -> Sums {
    let (ab, bc, cd, de) = (a + b, b + c, c + d, d + e);
    let (abc, bcd, cde) = (ab + bc, bc + cd, cd + de);
    let (abcd, bcde) = (abc + bcd, bcd + cde);
    let all = abcd + bcde;
    Sums { low: [a, ab, abc, abcd, all], high: [e, de, cde, bcde, all] }
}

#[rustfmt::skip]
fn cut10(c: &[i64; 15]) -> [[i64; 15]; 4] {
    // lines from corner 0 to corner 1; from the sums next to corner 0 to corner 2; and from those next to corner 1
    let (r0, r1) = (sums5(c[0], c[1], c[2], c[3], c[4]), sums4(c[5], c[6], c[7], c[8]));
    let (r2, r3) = (sums3(c[9], c[10], c[11]), sums2(c[12], c[13]));
    let (u0, u1) = (sums5(c[0], c[5], c[9], c[12], c[14]), sums4(r0.low[1], r1.low[1], r2.low[1], r3.low[1]));
    let (u2, u3) = (sums3(r0.low[2], r1.low[2], r2.low[2]), sums2(r0.low[3], r1.low[3]));
    let (v0, v1) = (sums5(c[4], c[8], c[11], c[13], c[14]), sums4(r0.high[1], r1.high[1], r2.high[1], r3.high[1]));
    let (v2, v3) = (sums3(r0.high[2], r1.high[2], r2.high[2]), sums2(r0.high[3], r1.high[3]));
    let (e01, e02, e12) = (r0.low[4], u0.low[4], v0.low[4]);
    // what has the middles of all edges in it, or both next to corner 2: a middle is the sum of the other two less a corner twice
    let (m211, m121) = (v2.low[2] + v1.low[3] - 2 * v1.low[2], u2.low[2] + u1.low[3] - 2 * u1.low[2]);
    let (m112, t) = (u3.low[1] + u2.low[2] - 2 * u2.low[1], c[10] + c[13]);
    let (w112, w211) = (4 * (t + u0.high[1]), 2 * (c[6] + c[10] + t + u0.high[2]));
    let (w310, w130) = (u1.low[3] + e02 - 2 * u0.low[3], v1.low[3] + e12 - 2 * v0.low[3]);
    let w220 = m121 - w310 + w211;
    let w121 = w220 - m211 + w130;
    [
        [
            16 * c[0], 8 * u1.low[0], 4 * u2.low[0], 2 * u3.low[0], e01,
            8 * u0.low[1], 4 * u1.low[1], 2 * u2.low[1], u3.low[1],
            4 * u0.low[2], 2 * u1.low[2], u2.low[2],
            2 * u0.low[3], u1.low[3],
            e02,
        ],
        [
            e01, 2 * v3.low[0], 4 * v2.low[0], 8 * v1.low[0], 16 * c[4],
            v3.low[1], 2 * v2.low[1], 4 * v1.low[1], 8 * v0.low[1],
            v2.low[2], 2 * v1.low[2], 4 * v0.low[2],
            v1.low[3], 2 * v0.low[3],
            e12,
        ],
        [
            e02, w310, w220, w130, e12,
            2 * u0.high[3], w211, w121, 2 * v0.high[3],
            4 * u0.high[2], w112, 4 * v0.high[2],
            8 * u0.high[1], 8 * v0.high[1],
            16 * c[14],
        ],
        [
            e12, w130, w220, w310, e02,
            v1.low[3], m211, m121, u1.low[3],
            v2.low[2], m112, u2.low[2],
            v3.low[1], u3.low[1],
            e01,
        ],
    ]
}

// as walk6
fn walk10(s: &mut State, c: &[i64; 15], level: u32, i: u32, j: u32, d: u32) {
    if pass10(c) {
        return s.kept(level);
    }
    let (x, y) = (i.wrapping_add(d), j.wrapping_add(d));
    if (c[0] <= 0) | (c[4] <= 0) | (c[14] <= 0) | (s.stop <= level) {
        s.point(c[0], level, i, j);
        s.point(c[4], level, x, j);
        s.point(c[14], level, i, y);
        s.failing += 1;
        return;
    }
    let q = cut10(c);
    walk10(s, &q[0], level + 1, 2 * i, 2 * j, d);
    walk10(s, &q[1], level + 1, i + x, 2 * j, d);
    walk10(s, &q[2], level + 1, 2 * i, j + y, d);
    walk10(s, &q[3], level + 1, i + x, j + y, d.wrapping_neg());
}

// ---- blocks
type Record = [u8; 80];

fn get(p: &[u8], at: usize) -> u32 {
    u32::from_le_bytes([p[at], p[at + 1], p[at + 2], p[at + 3]])
}

fn records(block: &[u8]) -> impl Iterator<Item = &Record> {
    block[9..].chunks_exact(80).map(|p| p.try_into().unwrap())
}

fn judge(p: &Record) -> Judged {
    let n: [i32; 18] = std::array::from_fn(|k| get(p, 8 + 4 * k) as i32);
    let limit = p[5] as u32;
    let mut s = State { stop: limit, ..State::default() };
    if p[4] == 6 {
        walk6(&mut s, &values6(&n), 0, 0, 0, 1);
    } else {
        walk9(&mut s, &values9(&n, p[4] == 8), 0, 0, 0);
    }
    s.told(limit)
}

type Ten = [u8; 84];

fn ten_records(file: &[u8]) -> impl Iterator<Item = &Ten> {
    file.chunks_exact(84).map(|p| p.try_into().unwrap())
}

// the control values of the ten-node triangle of a record
fn values_of(p: &Ten) -> [i64; 15] {
    values10(&std::array::from_fn(|k| get(p, 4 + 4 * k) as i32))
}

fn judge10(p: &Ten) -> Judged {
    let limit = get(p, 0);
    let mut s = State { stop: limit, ..State::default() };
    walk10(&mut s, &values_of(p), 0, 0, 0, 1);
    s.told(limit)
}

fn most_cells(block: &[u8], rounds: u32) -> u32 {
    let mut most = 0;
    for _ in 0..rounds {
        for p in records(block) {
            most = most.max(judge(p).cells);
        }
    }
    most
}

const WORDS: [&str; 3] = ["valid", "invalid", "undecided"];

fn list(block: &[u8]) -> String {
    use std::fmt::Write;
    let mut out = format!("CEL 1 {}\n", get(block, 5));
    for p in records(block) {
        let v = judge(p);
        let word = WORDS[v.word as usize];
        writeln!(out, "{} {} {} {} {} {} {}", get(p, 0), p[4], word, v.level, v.i, v.j, v.cells).unwrap();
    }
    out
}

fn most_cells10(file: &[u8], rounds: u32) -> u32 {
    let mut most = 0;
    for _ in 0..rounds {
        for p in ten_records(file) {
            most = most.max(judge10(p).cells);
        }
    }
    most
}

fn clear10(file: &[u8], rounds: u32) -> u32 {
    let mut clear = 0;
    for _ in 0..rounds {
        for p in ten_records(file) {
            clear += none_negative(&values_of(p)) as u32;
        }
    }
    clear
}

fn list10(file: &[u8]) -> String {
    use std::fmt::Write;
    let mut out = String::new();
    for p in ten_records(file) {
        let v = judge10(p);
        writeln!(out, "{} {} {} {} {} {}", WORDS[v.word as usize], v.level, v.i, v.j, v.value, v.cells).unwrap();
    }
    out
}

// the number that is told, or 64
fn times(word: Option<&String>) -> u32 {
    word.map_or(64, |n| n.parse().unwrap())
}

fn blocks(block: &[u8], mode: &str, rounds: u32) -> Option<String> {
    if block.len() < 9 || block.len() != 9 + 80 * get(block, 5) as usize {
        return None;
    }
    match mode {
        "rounds" => Some(format!("{}\n", most_cells(block, rounds))),
        _ => Some(list(block)),
    }
}

fn tens(file: &[u8], mode: &str, rounds: u32) -> Option<String> {
    let count = file.len() / 84;
    if file.len() != 84 * count || count > 800 {
        return None;
    }
    match mode {
        "rounds" => Some(format!("{}\n", most_cells10(file, rounds))),
        "values" => Some(format!("{}\n", clear10(file, rounds))),
        _ => Some(list10(file)),
    }
}

fn main() {
    let words: Vec<String> = std::env::args().collect();
    let mut input = Vec::new();
    std::io::stdin().read_to_end(&mut input).unwrap();
    let ten = words[1] == "tens";
    let words = if ten { &words[1..] } else { &words[..] };
    let rounds = times(words.get(2));
    let done = if ten { tens(&input, &words[1], rounds) } else { blocks(&input, &words[1], rounds) };
    match done {
        Some(out) => std::io::stdout().write_all(out.as_bytes()).unwrap(),
        None => std::process::exit(1),
    }
}
