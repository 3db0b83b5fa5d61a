// Gmsh MSH 2.2 texts, straight from docs/GMSH.md, whose rules are named by their numbers: the rows of a text, its sections, its nodes
// and elements, and what `append_mesh` answers.

use crate::block::{append, check_used, Record};
use crate::element::Element;
use crate::words::{is_decimal, is_tag, whole_coordinate, whole_number, words, Row, Word};
use std::collections::HashMap;

// The rows of a text: the words of each line that has one (G1, G3).
fn rows(text: &[u8]) -> Vec<Row<'_>> {
    text.split(|&b| b == b'\n').map(words).filter(|r| !r.is_empty()).collect()
}

// A section: its name, without the `$`, and its body.
struct Section<'a, 'b> {
    name: Word<'a>,
    body: &'b [Row<'a>],
}

// The name that a row opens a section with: it is one word, and begins with `$`.
fn opened<'a>(row: &Row<'a>) -> Option<Word<'a>> {
    if row.len() == 1 { row[0].strip_prefix(b"$") } else { None }
}

// Whether a row ends a section of that name.
fn ends(row: &Row, name: Word) -> bool {
    row.len() == 1 && row[0].strip_prefix(b"$End") == Some(name)
}

// The rows as sections, one after the other (G4, G5).
fn sections<'a, 'b>(rows: &'b [Row<'a>]) -> Option<Vec<Section<'a, 'b>>> {
    let mut out = Vec::new();
    let mut rest = rows;
    while let Some((first, behind)) = rest.split_first() {
        let name = opened(first)?;
        let length = behind.iter().position(|r| ends(r, name))?;
        out.push(Section { name, body: &behind[..length] });
        rest = &behind[length + 1..];
    }
    Some(out)
}

// A whole number above 0 (G11).
fn positive(w: Word) -> Option<u32> {
    whole_number(w).filter(|&n| n > 0)
}

// A node: its number and its coordinates, none for one that is not whole.
struct Node {
    number: u32,
    at: [Option<i64>; 3],
}

// An element of the text, of any type.
struct Listed {
    number: u32,
    kind: Option<u8>,
    nodes: Vec<u32>,
}

// A node row (G12, G16).
fn node_row(row: &Row) -> Option<Node> {
    if row.len() != 4 || !row[1..].iter().all(|w| is_decimal(w)) {
        return None;
    }
    let at = [row[1], row[2], row[3]].map(whole_coordinate);
    Some(Node { number: positive(row[0])?, at })
}

// The kind that a type of Gmsh becomes, if it is one of the three.
pub fn kind_of(gmsh_type: u32) -> Option<u8> {
    match gmsh_type {
        9 => Some(6),
        10 => Some(9),
        16 => Some(8),
        _ => None,
    }
}

// An element row (G13, G14, G15).
fn element_row(row: &Row) -> Option<Listed> {
    if row.len() < 4 {
        return None;
    }
    let (number, kind, tags) = (positive(row[0])?, kind_of(positive(row[1])?), whole_number(row[2])? as usize);
    let rest = &row[3..];
    if tags >= rest.len() || !rest[..tags].iter().all(|w| is_tag(w)) {
        return None;
    }
    let nodes: Vec<u32> = rest[tags..].iter().map(|w| positive(w)).collect::<Option<_>>()?;
    match kind {
        Some(k) if nodes.len() != k as usize => None,
        _ => Some(Listed { number, kind, nodes }),
    }
}

// The rows of a body behind their count, each read by `read` (G9).
fn counted<'a, T>(body: &[Row<'a>], read: fn(&Row<'a>) -> Option<T>) -> Option<Vec<T>> {
    let (first, rest) = body.split_first()?;
    if first.len() != 1 || whole_number(first[0])? as usize != rest.len() {
        return None;
    }
    rest.iter().map(read).collect()
}

// Whether the body is the one row of version 2.2, ASCII, doubles (G8).
fn is_format(body: &[Row]) -> bool {
    if body.len() != 1 || body[0].len() != 3 {
        return false;
    }
    let row = &body[0];
    let version = row[0].strip_prefix(b"2.2").is_some_and(|zeros| zeros.iter().all(|&b| b == b'0'));
    version && whole_number(row[1]) == Some(0) && whole_number(row[2]) == Some(8)
}

// The nodes and the elements of a text.
struct Mesh {
    nodes: Vec<Node>,
    elements: Vec<Listed>,
}

// What a text says; nothing where it is not of the form (G6, G7).
fn read(text: &[u8]) -> Option<Mesh> {
    let rows = rows(text);
    let mut mesh = Mesh { nodes: Vec::new(), elements: Vec::new() };
    let mut format = false;
    for s in sections(&rows)? {
        match s.name {
            b"MeshFormat" if is_format(s.body) => format = true,
            b"Nodes" if format => mesh.nodes.extend(counted(s.body, node_row)?),
            b"Elements" if format => mesh.elements.extend(counted(s.body, element_row)?),
            b"MeshFormat" | b"Nodes" | b"Elements" => return None,
            _ => {}
        }
    }
    if format { Some(mesh) } else { None }
}

// The places of Gmsh from which the nodes of a kind are taken, in the kind's order (G24).
pub fn places(kind: u8) -> &'static [usize] {
    match kind {
        6 => &[0, 1, 2, 3, 4, 5],
        8 => &[0, 4, 1, 7, 5, 3, 6, 2],
        _ => &[0, 4, 1, 7, 8, 5, 3, 6, 2],
    }
}

// The nodes by their numbers; nothing where a number is listed twice (G18, G19).
fn by_number(nodes: &[Node]) -> Option<HashMap<u32, &Node>> {
    let all: HashMap<u32, &Node> = nodes.iter().map(|n| (n.number, n)).collect();
    if all.len() == nodes.len() { Some(all) } else { None }
}

// Whether all coordinates are whole and z is 0.
fn is_flat(n: &Node) -> bool {
    n.at[0].is_some() && n.at[1].is_some() && n.at[2] == Some(0)
}

// The record of an element of that kind; nothing where one of its nodes is not listed.
fn record(e: &Listed, kind: u8, limit: u8, nodes: &HashMap<u32, &Node>) -> Option<Record> {
    let mut coords = Vec::new();
    for &p in places(kind) {
        let n = nodes.get(&e.nodes[p])?;
        coords.extend([n.at[0]?, n.at[1]?]);
    }
    Some(Record { id: e.number, element: Element { kind, limit, coords } })
}

// The records that a text stands for, in its order, and how many elements are passed over; or 13, 14, 15.
pub fn records(text: &[u8], limit: u8) -> Result<(Vec<Record>, usize), u8> {
    let mesh = read(text).ok_or(13)?;
    let nodes = by_number(&mesh.nodes).ok_or(13)?;
    if !mesh.nodes.iter().all(is_flat) {
        return Err(14);
    }
    let mut out = Vec::new();
    for e in &mesh.elements {
        if let Some(kind) = e.kind {
            out.push(record(e, kind, limit, &nodes).ok_or(15)?);
        }
    }
    let passed = mesh.elements.len() - out.len();
    Ok((out, passed))
}

// What `append_mesh` answers.
pub struct Meshed {
    pub code: u8,
    pub record: usize,
    pub used: u64,
    pub appended: usize,
    pub passed: usize,
}

// A run of appends; on a refusal the block may be half written (G20, G21).
fn append_all(records: &[Record], b: &mut [u8], used: u64) -> Result<u64, (u8, usize)> {
    check_used(b, used)?;
    records.iter().try_fold(used, |used, r| append(b, used, r))
}

// The call: its answer, and the buffer afterwards (G23).
pub fn append_mesh(text: &[u8], limit: u8, buffer: &[u8], used: u64) -> (Meshed, Vec<u8>) {
    let refusal = |code, record| (Meshed { code, record, used: 0, appended: 0, passed: 0 }, buffer.to_vec());
    let (records, passed) = match records(text, limit) {
        Err(code) => return refusal(code, 0),
        Ok(read) => read,
    };
    let mut after = buffer.to_vec();
    match append_all(&records, &mut after, used) {
        Err((code, record)) => refusal(code, record),
        Ok(used) => (Meshed { code: 0, record: 0, used, appended: records.len(), passed }, after),
    }
}
