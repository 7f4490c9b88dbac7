//! Sheets with a name: document 01's table, cases that tell the conditions apart, and the largest of their sort.

use crate::notation::parse;
use crate::sheet::{Job, Kind, Level, Operation, Sheet};

/// Document 01's table of sheets, each jobs list once, and the cases in which dropping a condition shows.
pub const SMALL: [&str; 13] = [
    ":",
    "RC : R0 W0",
    "RC RC : R0 W0 | R0 W0",
    "SI SSI : R0 W1 | R1 W0",
    "RC RC : R0 R1 | W0 W1",
    "RC RC : W0 R0 | W0",
    "SI SI SI : R0 W1 | W0 W2 | R2 R1",
    "SI SI SI SI : R0 W1 | W0 W2 | R2 W3 | R3 R1",
    "RC SI SI SSI : R0 W1 | W0 | W1 R0 | R1",
    "RC RC RC : W0 | W0 R0 | R0",
    "SSI RC SSI : W0 R1 | R0 W1 | R0 W1",
    "RC SSI SSI : W0 | R0 W1 | W0 R1",
    "SSI SSI RC : R0 W1 | W0 R1 | W0",
];

pub fn small() -> Vec<Sheet> {
    SMALL.iter().map(|text| sheet(text)).collect()
}

pub fn sheet(text: &str) -> Sheet {
    parse(text).expect("a sheet as people write it")
}

/// The jobs with all of them at one level.
pub fn at(level: Level, jobs: &str) -> Sheet {
    let count = jobs.split('|').count();
    sheet(&format!("{}: {jobs}", format!("{} ", level.name()).repeat(count)))
}

/// The sheet that document 01 prints with `survey`.
pub fn example() -> Sheet {
    sheet("RC SI : R0 W0 | R0 W0")
}

fn job(level: Level, operations: &[(Kind, usize)]) -> Job {
    let operation = |&(kind, object): &(Kind, usize)| Operation { kind, object: object as u16 };
    Job { level, operations: operations.iter().map(operation).collect() }
}

/// 32 jobs of 16 operations over all 4096 objects: 1706 bytes.
pub fn longest() -> Sheet {
    let mut sheet = Sheet { objects: 4096, jobs: Vec::new() };
    for number in 0..32 {
        let kind = |o: usize| if o % 3 == 1 { Kind::Write } else { Kind::Read };
        let operations: Vec<(Kind, usize)> = (0..16).map(|o| (kind(o), (number * 16 + o) * 8 + 7)).collect();
        sheet.jobs.push(job([Level::Rc, Level::Si, Level::Ssi][number % 3], &operations));
    }
    sheet
}

/// 32 jobs of the shortest kind: one operation each.
pub fn many_short() -> Sheet {
    let kind = |number| if number % 2 == 0 { Kind::Read } else { Kind::Write };
    let jobs = (0..32).map(|number| job(Level::Si, &[(kind(number), number / 4)])).collect();
    Sheet { objects: 8, jobs }
}

/// The most dangers that a sheet can have: 246,016.
pub fn most_dangers() -> Sheet {
    let mut operations: Vec<(Kind, usize)> = (0..8).map(|object| (Kind::Read, object)).collect();
    operations.extend((0..8).map(|object| (Kind::Write, object)));
    Sheet { objects: 8, jobs: vec![job(Level::Rc, &operations); 32] }
}

/// Each job reads its own object and writes the one so many steps further: the longest chains.
pub fn ring(jobs: usize, step: usize) -> Sheet {
    let one = |number| job(Level::Si, &[(Kind::Read, number), (Kind::Write, (number + step) % jobs)]);
    Sheet { objects: jobs as u16, jobs: (0..jobs).map(one).collect() }
}

/// 32 jobs that all read and write one object: each is split by each two others, or one.
pub fn crowd() -> Sheet {
    Sheet { objects: 1, jobs: vec![job(Level::Rc, &[(Kind::Read, 0), (Kind::Write, 0)]); 32] }
}

/// Fourteen steps of two jobs each between the first and the last job: equal chains without number.
pub fn ladder() -> Sheet {
    let mut jobs = vec![
        job(Level::Si, &[(Kind::Read, 0), (Kind::Write, 1)]),
        job(Level::Si, &[(Kind::Write, 0), (Kind::Write, 2)]),
    ];
    for step in 2..16 {
        jobs.push(job(Level::Si, &[(Kind::Read, step), (Kind::Write, step + 1)]));
        jobs.push(job(Level::Si, &[(Kind::Write, step + 1), (Kind::Read, step)]));
    }
    jobs.push(job(Level::Si, &[(Kind::Read, 16), (Kind::Read, 1)]));
    Sheet { objects: 17, jobs }
}
