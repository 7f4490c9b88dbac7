//! Cases for the chain shown: every length up to the longest, and of several chains the shortest and lowest (document
//! 01, "The walk and the chain shown").

use super::walking::walk;
use super::{known, Question};
use crate::sheet::{Level, Sheet};

/// Chains of which another choice than the shortest and lowest is near at hand.
const CHOICES: [&str; 6] = [
    // Two equal chains, 2 3 6 7 and 2 4 5 7: counted from Tm's end the other is lower.
    "R0 W1 | W0 W2 | R2 W3 | R2 W4 | R4 R5 | R3 R5 | W5 R1",
    // Two equal chains, by job 3 or 4: the pairs by job 4 are lower.
    "R0 W1 | W3 W2 W0 | R2 W4 | R3 W5 | R4 R5 R1",
    // The chain 2 4 5 is shorter, 2 3 4 5 lower.
    "R0 W1 | W0 W2 | R2 W3 | R2 R3 W4 | R4 R1",
    // Job 2 is lower than job 4 and just as near, but conflicts with T1.
    "R0 W1 W5 | W2 R3 R5 | W0 W2 | R2 W3 | R3 R1 | R5",
    // T1 reads only, and would be the lowest job between T2 and Tm.
    "R0 R1 | W0 W2 | R2 R3 | W1 W3 | R9 | R9",
    // The same with nothing between T2 and Tm but T1.
    "R0 R1 | W0 | W1 | R9 | R9 | R9",
];

pub fn cases() -> Vec<Question> {
    let mut cases = Vec::new();
    for jobs in CHOICES {
        for level in [Level::Rc, Level::Si] {
            let sheet = known::at(level, jobs);
            cases.extend(walk(&sheet, &sheet.levels()));
        }
    }
    for jobs in 16..=32 {
        cases.extend(around_a_ring(&known::ring(jobs, 1)));
        if jobs % 7 != 0 {
            cases.extend(around_a_ring(&known::ring(jobs, 7)));
        }
    }
    cases
}

/// The first chain, which has all jobs but one, and the last one.
fn around_a_ring(sheet: &Sheet) -> Vec<Question> {
    let next = |above| Question::Next { sheet: sheet.bytes(), levels: vec![1; sheet.jobs.len()], above };
    [[0, 0, 0, 0], [sheet.jobs.len() as u8, 0, 0, 0]].map(next).to_vec()
}
