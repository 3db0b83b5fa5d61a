// An independent judge: it makes sets of elements, blocks, proof sheets, mesh texts and texts of records from fixed seeds, and writes what
// the checker must answer to them.
//   independent DIR    writes calls.txt, floors.txt, signs.txt, sheets.txt, fars.txt, corners.txt, tens.txt, mends.txt, solvers.txt,
//                      lists.txt, floorlists.txt, meshes.txt and packs.txt in DIR
//   independent -      answers the lines of standard input as the program calls does, a line each
// A line of calls.txt, floors.txt, signs.txt, sheets.txt, fars.txt, corners.txt, tens.txt, mends.txt, solvers.txt, meshes.txt and
// packs.txt is `a line for the program calls -> its answer`; one of lists.txt is `a block in hex -> what the program verdicts prints, its
// lines joined by " / "`, and one of floorlists.txt has the floor before the block.

mod answers;
mod block;
mod blocks;
mod corners;
mod element;
mod fars;
mod floor;
mod floors;
mod mend;
mod mends;
mod mesh;
mod pack;
mod packs;
mod sets;
mod sheet;
mod sheets;
mod sign;
mod signs;
mod solver;
mod solvers;
mod ten;
mod tens;
mod texts;
mod verdict;
mod words;

use answers::{answer, words};
use block::{block_bytes, check, hex, list};
use blocks::{damaged, records};
use element::Element;
use floor::floor_list;
use sets::{elements, is_near, Random};
use std::sync::{Arc, Mutex};

// ---- lines for the program `calls`

fn verdict_question(e: &Element) -> String {
    format!("verdict {} {}{}", e.kind, e.limit, words(&e.coords))
}

fn control_questions(e: &Element, room: u64) -> Vec<String> {
    let c = words(&e.coords);
    vec![format!("control {} {}{}", room, e.kind, c), format!("bounds {}{}", e.kind, c)]
}

fn block_questions(b: &[u8], r: &mut Random) -> Vec<String> {
    let h = hex(b);
    let fetched = match check(b) {
        Ok(n) => vec![0, n as u64 / 2, n as u64, r.next() >> 32],
        Err(_) => vec![0],
    };
    let mut out = vec![format!("check {}", h), format!("walk {}", h)];
    out.extend(fetched.iter().map(|k| format!("fetch {} {}", h, k)));
    out
}

// ---- lines of the files

// A line for the program `calls` with its answer.
fn answered(question: &String) -> String {
    format!("{} -> {}\n", question, answer(question))
}

fn list_line(b: &Vec<u8>) -> String {
    format!("{} -> {}\n", hex(b), list(b).join(" / "))
}

fn floor_list_line((p, b): &(u8, Vec<u8>)) -> String {
    format!("{} {} -> {}\n", p, hex(b), floor_list(*p, b).join(" / "))
}

// The lines of `f` over the list, on two threads, in order.
fn in_parallel<T: Send + Sync + 'static>(list: Vec<T>, f: fn(&T) -> String) -> String {
    let n = list.len();
    let list = Arc::new(list);
    let next = Arc::new(Mutex::new(0));
    let out = Arc::new(Mutex::new(vec![String::new(); n]));
    let threads: Vec<_> = (0..2)
        .map(|_| {
            let (list, next, out) = (list.clone(), next.clone(), out.clone());
            std::thread::spawn(move || loop {
                let k = {
                    let mut g = next.lock().unwrap();
                    *g += 1;
                    *g - 1
                };
                if k >= n {
                    return;
                }
                let s = f(&list[k]);
                out.lock().unwrap()[k] = s;
            })
        })
        .collect();
    for t in threads {
        t.join().unwrap();
    }
    Arc::try_unwrap(out).unwrap().into_inner().unwrap().concat()
}

// ---- the sets

// Lines about elements and blocks, and blocks to be listed.
fn calls_and_blocks() -> (Vec<String>, Vec<Vec<u8>>) {
    let all = elements();
    let mut r = Random(7);
    let (mut calls, mut blocks) = (Vec::new(), Vec::new());
    for e in all.iter().step_by(16) {
        let room = if r.range(0, 9) == 0 { r.range(0, 16) as u64 } else { r.range(16, 64) as u64 };
        calls.extend(control_questions(e, room));
    }
    // an element of these blocks is not a slow one
    let fits = |e: &Element| is_near(e) && e.limit <= 4;
    for size in [0, 1, 2, 3, 4, 5, 8, 13, 800] {
        let b = block_bytes(&records(&mut r, &all, size, fits));
        blocks.push(b.clone());
        if size > 20 {
            continue;
        }
        calls.extend(block_questions(&b, &mut r));
        for _ in 0..24 {
            let d = damaged(&mut r, &b);
            calls.extend(block_questions(&d, &mut r));
            blocks.push(d);
        }
    }
    calls.extend(all.iter().map(verdict_question));
    (calls, blocks)
}

fn write_sets(dir: &str) {
    let write = |name: &str, lines: String| std::fs::write(format!("{}/{}", dir, name), lines).expect(name);
    let (calls, mut blocks) = calls_and_blocks();
    let floors = floors::questions();
    let mut floor_blocks = floors::blocks(&floors);
    // signed blocks stand behind the others
    let stock = signs::stock();
    blocks.extend(signs::blocks(&stock));
    floor_blocks.extend(signs::floor_blocks(&stock));
    write("calls.txt", in_parallel(calls, answered));
    write("lists.txt", in_parallel(blocks, list_line));
    let floors = floors.iter().chain(&floors::collapsed_questions()).map(floors::Question::line).collect();
    write("floors.txt", in_parallel(floors, answered));
    write("floorlists.txt", in_parallel(floor_blocks, floor_list_line));
    write("signs.txt", in_parallel(signs::questions(&stock), answered));
    write("sheets.txt", in_parallel(sheets::questions(), answered));
    write("fars.txt", in_parallel(fars::questions(), answered));
    write("corners.txt", in_parallel(corners::questions(), answered));
    write("tens.txt", in_parallel(tens::questions(), answered));
    write("mends.txt", in_parallel(mends::questions(), answered));
    write("solvers.txt", in_parallel(solvers::questions(), answered));
    let meshes = texts::questions().iter().chain(&texts::collapsed_questions()).map(texts::Question::line).collect();
    write("meshes.txt", in_parallel(meshes, answered));
    write("packs.txt", in_parallel(packs::questions().iter().map(packs::Question::line).collect(), answered));
}

fn main() {
    let dir = std::env::args().nth(1).expect("usage: independent DIR, or independent -");
    if dir != "-" {
        return write_sets(&dir);
    }
    let lines = std::io::stdin().lines().map(|l| l.expect("a line")).collect();
    print!("{}", in_parallel(lines, |l: &String| answer(l) + "\n"));
}
