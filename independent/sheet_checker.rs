// A checker of proof sheets that stands alone: it was written from docs/SHEET.md, and shares no file with the judge or the writer.
//   sheet_checker      answers the lines `checksheet HEX KIND LIMIT x y ..` of standard input, a line each, by the code
// A line that it cannot read gets `?`. Numbers are 128 bits wide, and no value comes near that.

use std::io::BufRead;

type Num = i128;
type Point = [Num; 2];

const NOT_ACCEPTED: u8 = 20;
const HEADER: [u8; 5] = [0x43, 0x50, 0x53, 1, 0];
const KEPT: u8 = 0;
const CUT: u8 = 1;

// ---- points

// The sum of points, each with its factor.
fn combined(terms: &[(Num, Point)]) -> Point {
    terms.iter().fold([0, 0], |[x, y], &(f, [a, b])| [x + f * a, y + f * b])
}

fn minus(a: Point, b: Point) -> Point {
    combined(&[(1, a), (-1, b)])
}

fn det([a, b]: Point, [c, d]: Point) -> Num {
    a * d - b * c
}

// Whether all these points lie in the square around the centre, whose sides are so far from it.
fn are_around(centre: Point, far: Num, points: &[Point]) -> bool {
    points.iter().all(|&p| minus(p, centre).iter().all(|d| -far <= *d && *d <= far))
}

// The corners of an element.
fn corners(nodes: &[Point]) -> Vec<Point> {
    match nodes {
        [a, b, c, _, _, _] => vec![*a, *b, *c],
        [a, _, b, _, _, c, _, d] => vec![*a, *b, *c, *d],
        _ => vec![nodes[0], nodes[2], nodes[6], nodes[8]],
    }
}

// Whether no two of these points are one.
fn are_different(points: &[Point]) -> bool {
    match points {
        [first, others @ ..] => !others.contains(first) && are_different(others),
        [] => true,
    }
}

// ---- triangles

// c00 c11 c22 c01 c12 c02
type Triangle = [Num; 6];

fn triangle(n: &[Point]) -> Triangle {
    let edge = |middle: Point, k: usize, l: usize| combined(&[(4, middle), (-1, n[k]), (-1, n[l])]);
    let corner = |k: usize| combined(&[(2, n[k])]);
    let (q01, q12, q02) = (edge(n[3], 0, 1), edge(n[4], 1, 2), edge(n[5], 0, 2));
    let a = [minus(q01, corner(0)), minus(corner(1), q01), minus(q12, q02)];
    let b = [minus(q02, corner(0)), minus(q12, q01), minus(corner(2), q02)];
    // for k = l it is the corner's rule
    let c = |k: usize, l: usize| det(a[k], b[l]) + det(a[l], b[k]);
    [c(0, 0), c(1, 1), c(2, 2), c(0, 1), c(1, 2), c(0, 2)]
}

fn triangle_quarters([c00, c11, c22, c01, c12, c02]: Triangle) -> [Triangle; 4] {
    let (m01, m12, m02) = (c00 + 2 * c01 + c11, c11 + 2 * c12 + c22, c00 + 2 * c02 + c22);
    let (n0, n1, n2) = (c00 + c01 + c02 + c12, c11 + c01 + c12 + c02, c22 + c02 + c12 + c01);
    [
        [4 * c00, m01, m02, 2 * (c00 + c01), n0, 2 * (c00 + c02)],
        [m01, 4 * c11, m12, 2 * (c01 + c11), 2 * (c11 + c12), n1],
        [m02, m12, 4 * c22, n2, 2 * (c12 + c22), 2 * (c02 + c22)],
        [m12, m02, m01, n2, n0, n1],
    ]
}

fn triangle_passes(c: &Triangle) -> bool {
    c[..3].iter().all(|&v| v > 0) && c[3..].iter().all(|&v| v >= 0)
}

// ---- quads

// The value v(k, l) stands at [l][k].
type Quad = [[Num; 4]; 4];

const CHOOSE_2: [Num; 3] = [1, 2, 1];
const CHOOSE_3: [Num; 4] = [1, 3, 3, 1];

// The points R of nine nodes in rows, R(i, j) at [j][i]; `centre` is R11.
fn control_points(n: &[[Point; 3]; 3], centre: Point) -> [[Point; 3]; 3] {
    let corner = |i: usize, j: usize| combined(&[(4, n[j][i])]);
    let edge = |m: Point, a: Point, b: Point| combined(&[(8, m), (-2, a), (-2, b)]);
    [
        [corner(0, 0), edge(n[0][1], n[0][0], n[0][2]), corner(2, 0)],
        [edge(n[1][0], n[0][0], n[2][0]), centre, edge(n[1][2], n[0][2], n[2][2])],
        [corner(0, 2), edge(n[2][1], n[2][0], n[2][2]), corner(2, 2)],
    ]
}

// Nodes in rows; kind 8 has none at the centre, and what stands there then is used for nothing.
fn rows(n: &[Point]) -> [[Point; 3]; 3] {
    match n {
        [a, b, c, d, e, f, g, h] => [[*a, *b, *c], [*d, [0, 0], *e], [*f, *g, *h]],
        _ => [[n[0], n[1], n[2]], [n[3], n[4], n[5]], [n[6], n[7], n[8]]],
    }
}

fn quad(nodes: &[Point]) -> Quad {
    let n = rows(nodes);
    let edges = combined(&[(1, n[0][1]), (1, n[1][0]), (1, n[1][2]), (1, n[2][1])]);
    let corners = combined(&[(1, n[0][0]), (1, n[0][2]), (1, n[2][0]), (1, n[2][2])]);
    let centre = if nodes.len() == 8 {
        combined(&[(4, edges), (-3, corners)])
    } else {
        combined(&[(16, n[1][1]), (-4, edges), (1, corners)])
    };
    quad_values(&control_points(&n, centre))
}

// Each pair of an α and a β adds to one value; the factor before the sum comes last.
fn quad_values(r: &[[Point; 3]; 3]) -> Quad {
    let mut v = [[0; 4]; 4];
    for i1 in 0..2 {
        for j1 in 0..3 {
            let alpha = minus(r[j1][i1 + 1], r[j1][i1]);
            for i2 in 0..3 {
                for j2 in 0..2 {
                    let beta = minus(r[j2 + 1][i2], r[j2][i2]);
                    v[j1 + j2][i1 + i2] += CHOOSE_2[i2] * CHOOSE_2[j1] * det(alpha, beta);
                }
            }
        }
    }
    for j in 0..4 {
        for i in 0..4 {
            v[j][i] *= 9 / (CHOOSE_3[i] * CHOOSE_3[j]);
        }
    }
    v
}

// The lower and the upper half of four numbers.
fn halves([a, b, c, d]: [Num; 4]) -> [[Num; 4]; 2] {
    let middle = a + 3 * b + 3 * c + d;
    [[8 * a, 4 * (a + b), 2 * (a + 2 * b + c), middle], [middle, 2 * (b + 2 * c + d), 4 * (c + d), 8 * d]]
}

fn halves_along_u(v: &Quad) -> [Quad; 2] {
    let rows = v.map(halves);
    [rows.map(|h| h[0]), rows.map(|h| h[1])]
}

// The cell with u and v exchanged.
fn exchanged(v: &Quad) -> Quad {
    [0, 1, 2, 3].map(|i| [0, 1, 2, 3].map(|j| v[j][i]))
}

fn halves_along_v(v: &Quad) -> [Quad; 2] {
    halves_along_u(&exchanged(v)).map(|h| exchanged(&h))
}

fn quad_quarters(v: &Quad) -> [Quad; 4] {
    let [left, right] = halves_along_u(v);
    let ([lower_left, upper_left], [lower_right, upper_right]) = (halves_along_v(&left), halves_along_v(&right));
    [lower_left, lower_right, upper_left, upper_right]
}

fn quad_passes(v: &Quad) -> bool {
    let is_corner = |i: usize, j: usize| i % 3 == 0 && j % 3 == 0;
    (0..4).all(|j| (0..4).all(|i| v[j][i] > 0 || v[j][i] == 0 && !is_corner(i, j)))
}

// ---- cells

enum Cell {
    Triangle(Triangle),
    Quad(Quad),
}

impl Cell {
    // The whole element.
    fn whole(nodes: &[Point]) -> Cell {
        if nodes.len() == 6 { Cell::Triangle(triangle(nodes)) } else { Cell::Quad(quad(nodes)) }
    }

    fn quarters(&self) -> [Cell; 4] {
        match self {
            Cell::Triangle(c) => triangle_quarters(*c).map(Cell::Triangle),
            Cell::Quad(v) => quad_quarters(v).map(Cell::Quad),
        }
    }

    fn passes(&self) -> bool {
        match self {
            Cell::Triangle(c) => triangle_passes(c),
            Cell::Quad(v) => quad_passes(v),
        }
    }
}

// ---- the check

// The bytes behind those of this cell, which may be cut `left` levels deep; nothing at the first byte that cannot be right.
fn behind<'a>(cell: &Cell, left: u8, bytes: &'a [u8]) -> Option<&'a [u8]> {
    let (&byte, mut rest) = bytes.split_first()?;
    match byte {
        KEPT if cell.passes() => Some(rest),
        CUT if left > 0 => {
            for quarter in cell.quarters() {
                rest = behind(&quarter, left - 1, rest)?;
            }
            Some(rest)
        }
        _ => None,
    }
}

fn is_accepted(nodes: &[Point], limit: u8, sheet: &[u8]) -> bool {
    match sheet.strip_prefix(&HEADER) {
        Some(cutting) => behind(&Cell::whole(nodes), limit, cutting).is_some_and(|rest| rest.is_empty()),
        None => false,
    }
}

// The code of a check: the first of 1, 2, 3, 4, 21 and 20 that holds, else 0.
fn check(sheet: &[u8], kind: u8, limit: u8, coords: &[i32]) -> u8 {
    let (greatest, farthest) = match kind {
        6 => (10, 65_536),
        8 | 9 => (4, 2_048),
        _ => return 1,
    };
    if limit > greatest {
        return 2;
    }
    if coords.len() != 2 * kind as usize {
        return 3;
    }
    let nodes: Vec<Point> = coords.chunks(2).map(|n| [n[0] as Num, n[1] as Num]).collect();
    if !are_around([0, 0], farthest, &nodes) && !are_around(nodes[0], farthest, &nodes) {
        return 4;
    }
    if !are_different(&corners(&nodes)) {
        return 21;
    }
    if is_accepted(&nodes, limit, sheet) { 0 } else { NOT_ACCEPTED }
}

// ---- lines

// The bytes that two hex digits each stand for; `-` for none.
fn bytes_of(word: &str) -> Option<Vec<u8>> {
    if word == "-" {
        return Some(Vec::new());
    }
    let digits: Option<Vec<u32>> = word.chars().map(|c| c.to_digit(16)).collect();
    let digits = digits?;
    if digits.is_empty() || digits.len() % 2 == 1 {
        return None;
    }
    Some(digits.chunks(2).map(|d| (16 * d[0] + d[1]) as u8).collect())
}

// The code that answers a line, if it can be read.
fn answer(line: &str) -> Option<u8> {
    let words: Vec<&str> = line.split(' ').collect();
    match words[..] {
        ["checksheet", sheet, kind, limit, ref coords @ ..] => {
            let coords: Option<Vec<i32>> = coords.iter().map(|x| x.parse().ok()).collect();
            Some(check(&bytes_of(sheet)?, kind.parse().ok()?, limit.parse().ok()?, &coords?))
        }
        _ => None,
    }
}

fn main() {
    for line in std::io::stdin().lock().split(b'\n') {
        match std::str::from_utf8(&line.expect("a line")).ok().and_then(answer) {
            Some(code) => println!("{}", code),
            None => println!("?"),
        }
    }
}
