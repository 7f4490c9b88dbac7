//! Four numbers of any size, most of which can't name a danger: T1, T2, Tm above 32 and b1 above 16, up to 255, beside
//! numbers that do (document 01, "The walk and the chain shown").

use super::{bytes, known, Question};
use crate::sheet::{Level, Sheet};

pub fn cases() -> Vec<Question> {
    let mut cases = Vec::new();
    let last = known::at(Level::Rc, "W1 R2 R3 R4 R5 R6 R7 R8 R9 R10 R11 R12 R13 R14 R15 R0 | W0 R1");
    cases.extend(next(&last, &about_sixteen()));
    let three = known::at(Level::Rc, "R0 R1 W0 W1 | R0 R1 W0 W1 | R0 R1 W0 W1");
    cases.extend(next(&three, &one_beyond()));
    cases.extend(next(&known::crowd(), &about_thirty_two()));
    cases
}

fn next(sheet: &Sheet, starts: &[[u8; 4]]) -> Vec<Question> {
    let next = |above: &[u8; 4]| Question::Next { sheet: sheet.bytes(), levels: bytes(&sheet.levels()), above: *above };
    starts.iter().map(next).collect()
}

/// b1 at and beyond the last operation, with T2 and Tm at, about and beyond 2.
fn about_sixteen() -> Vec<[u8; 4]> {
    let mut starts = Vec::new();
    for b1 in [15, 16, 17, 32, 48, 80, 144, 255] {
        for (t2, tm) in
            [(0, 0), (1, 255), (2, 0), (2, 1), (2, 2), (2, 33), (2, 65), (2, 129), (3, 0), (66, 0), (130, 0)]
        {
            starts.push([1, b1, t2, tm]);
        }
    }
    starts.extend([[2, 2, 1, 0], [2, 2, 1, 1], [2, 3, 0, 0], [65, 0, 0, 0], [129, 0, 0, 0], [255, 255, 255, 255]]);
    starts
}

/// A danger in which one number, and those behind it, is beyond all that can stand there.
fn one_beyond() -> Vec<[u8; 4]> {
    let mut starts = Vec::new();
    for beyond in [4, 16, 17, 31, 32, 33, 64, 128, 255] {
        for rest in [0, 1, beyond] {
            starts.extend([[1, 1, 2, beyond], [2, 1, 3, beyond], [3, 2, 2, beyond], [1, 1, beyond, rest]]);
            starts.extend([[2, 2, beyond, rest], [1, beyond, rest, rest], [2, beyond, rest, 3], [beyond, rest, 1, 1]]);
        }
    }
    starts.sort();
    starts.dedup();
    starts
}

/// All four numbers at and about 32, where every job is split, first and last.
fn about_thirty_two() -> Vec<[u8; 4]> {
    let mut starts = Vec::new();
    for t1 in [1, 31, 32] {
        for (t2, tm) in
            [(30, 32), (31, 31), (31, 32), (32, 30), (32, 31), (32, 32), (32, 33), (33, 0), (34, 1), (64, 2)]
        {
            starts.push([t1, 1, t2, tm]);
        }
    }
    starts.extend([[32, 0, 0, 0], [32, 1, 30, 31], [32, 1, 31, 30], [33, 0, 0, 0], [64, 0, 0, 0], [160, 1, 1, 1]]);
    starts
}
