//! Cases for which objects are one: two jobs that share an object at the edge of a span, as an index by objects may go,
//! and two jobs whose objects differ by a span (document 01, "Conflicts and splits").

use super::{known, Question};
use crate::sheet::Sheet;

/// Edges of spans of 256 and 512 objects, and the first and the last object.
const EDGES: [u16; 16] = [0, 255, 256, 511, 512, 1023, 1024, 1535, 1536, 2047, 2048, 2560, 3071, 3583, 3584, 4095];

/// Pairs of objects that an index by spans might take for one.
const APART: [(u16, u16); 8] =
    [(0, 256), (0, 512), (511, 1023), (512, 1024), (1, 2049), (3583, 4095), (0, 4095), (511, 512)];

pub fn cases() -> Vec<Question> {
    let mut cases = Vec::new();
    for object in EDGES {
        cases.extend(two_jobs(object, object, object + 1));
        cases.extend(two_jobs(object, object, 4096));
    }
    for (one, other) in APART {
        cases.extend(two_jobs(one, other, 4096));
    }
    let all = all_edges();
    cases.push(Question::Lowest { sheet: all.bytes(), buffer: vec![0xEE; 32] });
    for t1 in 0..32 {
        cases.push(Question::Next { sheet: all.bytes(), levels: vec![0; 32], above: [t1, 255, 0, 0] });
    }
    cases
}

/// Two jobs that each read and write an object, so many being declared.
fn two_jobs(one: u16, other: u16, objects: u16) -> Vec<Question> {
    let sheet = known::sheet(&format!("RC RC : R{one} W{one} | R{other} W{other} : objects {objects}")).bytes();
    vec![
        Question::Judge { sheet: sheet.clone(), levels: vec![0, 0] },
        Question::Next { sheet: sheet.clone(), levels: vec![0, 0], above: [0; 4] },
        Question::Lowest { sheet, buffer: vec![0xEE; 2] },
    ]
}

/// For each edge a job that reads and one that writes the object: each job of a pair is the other's only partner.
fn all_edges() -> Sheet {
    let pair = |object: &u16| format!("R{object} W{object} | W{object} R{object}");
    let jobs: Vec<String> = EDGES.iter().map(pair).collect();
    known::sheet(&format!("{}: {} : objects 4096", "RC ".repeat(32), jobs.join(" | ")))
}
