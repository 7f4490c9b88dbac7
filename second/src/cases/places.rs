//! The first, the last but one and the last job as T1, T2, Tm and in the middle; operations 15 and 16 as b1, a1 and in
//! every pair (document 01, "The sheet, form 1": 32 jobs of 16 operations).

use super::walking::walk;
use super::{bytes, known, Question};
use crate::sheet::{Job, Kind, Level, Operation, Sheet, LEVELS};

/// Places of T1, T2, the job in the middle and Tm.
const ROLES: [[usize; 4]; 8] = [
    [1, 31, 16, 32],
    [1, 32, 31, 16],
    [31, 32, 1, 16],
    [31, 1, 32, 2],
    [32, 31, 16, 1],
    [32, 1, 31, 30],
    [16, 32, 1, 31],
    [2, 31, 32, 1],
];

const CHAIN: &str = "R0 W1 | W0 W2 | R2 W3 | R3 R1";

/// Places of T1, T2, the jobs in the middle and Tm, and of two jobs that lead nowhere, one beside T2 and one beside Tm.
const DEAD_ENDS: [[usize; 7]; 3] = [[1, 2, 3, 32, 5, 6, 7], [1, 2, 32, 3, 4, 31, 30], [32, 31, 1, 30, 29, 2, 3]];

const BESIDE: &str = "R0 W1 | W0 W2 W6 | R2 W3 | R3 W4 | R4 R1 W5 | R6 | R5";

/// b1 is the last of 16 operations, and nothing else is a danger where the others are above RC.
const LAST_OPERATION: &str = "W1 R3 R4 R5 R6 R7 R8 R9 R10 R11 R12 R13 R14 R15 R16 R0 | W0 W2 | R2 R1";

pub fn cases() -> Vec<Question> {
    let mut cases = Vec::new();
    for roles in ROLES {
        cases.extend(asked(&in_roles(CHAIN, &roles), &[Level::Si]));
    }
    for roles in DEAD_ENDS {
        cases.extend(asked(&in_roles(BESIDE, &roles), &[Level::Si]));
    }
    let sheet = known::at(Level::Rc, LAST_OPERATION).bytes();
    cases.push(Question::Judge { sheet, levels: vec![0, 1, 1] });
    let jobs = known::at(Level::Rc, CHAIN);
    let returning = known::at(Level::Rc, "R0 R1 | W0 W1");
    for sheet in [jobs, returning] {
        for first in [14, 13] {
            cases.extend(asked(&filled_up(&sheet, first), &LEVELS));
        }
    }
    cases
}

/// The verdict and the walk with all jobs at each of these levels, and the lowest levels.
fn asked(sheet: &Sheet, levels: &[Level]) -> Vec<Question> {
    let jobs = sheet.jobs.len();
    let mut cases = vec![Question::Lowest { sheet: sheet.bytes(), buffer: vec![0xEE; jobs] }];
    for level in levels {
        let levels = vec![*level; jobs];
        cases.push(Question::Judge { sheet: sheet.bytes(), levels: bytes(&levels) });
        cases.extend(walk(sheet, &levels));
    }
    cases
}

/// The jobs at these places of a sheet of 32 jobs, whose others read an object that nobody writes.
fn in_roles(jobs: &str, roles: &[usize]) -> Sheet {
    let some = known::at(Level::Rc, jobs).jobs;
    let mut jobs = vec![idle(&[9]); 32];
    for (job, place) in some.into_iter().zip(roles) {
        jobs[place - 1] = job;
    }
    Sheet { objects: 10, jobs }
}

fn idle(objects: &[u16]) -> Job {
    let read = |object: &u16| Operation { kind: Kind::Read, object: *object };
    Job { level: Level::Rc, operations: objects.iter().map(read).collect() }
}

/// So many idle reads before the operations of each job, and as many behind them as 16 in all leave.
fn filled_up(sheet: &Sheet, before: u16) -> Sheet {
    let fill = |job: &Job| {
        let end = 100 + 16 - job.operations.len() as u16;
        let front = idle(&(100..100 + before).collect::<Vec<_>>()).operations;
        let back = idle(&(100 + before..end).collect::<Vec<_>>()).operations;
        Job { level: job.level, operations: [front, job.operations.clone(), back].concat() }
    };
    Sheet { objects: 120, jobs: sheet.jobs.iter().map(fill).collect() }
}
