//! Sheets in which one condition, or one choice of a pair, decides alone (document 01, "Conflicts and splits" and "The
//! walk and the chain shown"). Each is asked as it stands, where every chain is tried, and beside idle jobs, where the
//! plain search answers.

use super::known;
use super::walking::walk;
use super::{bytes, Question};
use crate::sheet::{Level, Sheet, LEVELS};

/// The jobs; the levels are put to them below.
const TELLING: [&str; 28] = [
    // Condition 1: job 3 in the middle is free of T1, or ww, rw, wr with it; of two middle jobs either may not be free.
    "R0 W1 | W0 W2 | R2 W3 | R3 R1",
    "R0 W1 W4 | W0 W2 | R2 W3 W4 | R3 R1",
    "R0 W1 R4 | W0 W2 | R2 W3 W4 | R3 R1",
    "R0 W1 W4 | W0 W2 | R2 W3 R4 | R3 R1",
    "R0 W1 W5 | W0 W2 | R2 W3 R5 | R3 W4 | R4 R1",
    "R0 W1 W5 | W0 W2 | R2 W3 | R3 W4 R5 | R4 R1",
    // Condition 2: a write of the prefix, first or just before b1, is ww with T2 or with Tm alone.
    "W4 R5 R0 W1 | W0 W2 W4 | R2 R1",
    "W4 R5 R0 W1 | W0 W2 | R2 R1 W4",
    "R5 W4 R0 W1 | W0 W2 W4 | R2 R1",
    "R5 W4 R0 W1 | W0 W2 | R2 R1 W4",
    // Condition 3: a write of the postfix, just behind b1 or last, is ww with T2 or with Tm alone.
    "R0 W4 W1 | W0 W2 W4 | R2 R1",
    "R0 W4 W1 | W0 W2 | R2 R1 W4",
    "R0 W1 W4 | W0 W2 W4 | R2 R1",
    "R0 W1 W4 | W0 W2 | R2 R1 W4",
    // Condition 4: b1 is wr or ww with a2, not rw.
    "W0 R1 | R0 W2 | R2 W1",
    "W0 W1 | W0 W2 | R2 R1",
    // Condition 5: a1 is b1 itself, just behind it, just before it; one before b1 stands beside one behind it.
    "R0 | W0",
    "R0 R1 | W0 W1",
    "R1 R0 W1 | W1 W0",
    "R1 R2 R0 W2 | W1 W2 W0",
    // Condition 5: bm is rw with a1 before b1, and in another conflict behind it, which RC alone may take.
    "W1 R0 R2 | W0 R1 W2",
    "W1 R0 R2 | W2 W0 R1",
    "W1 R0 R2 | W0 W3 | R3 W2 R1",
    // T2 and Tm have two pairs: the lower one by T2's operation is the higher one by Tm's.
    "R0 W1 | W0 W3 W2 | R2 R3 R1",
    // Conditions 6, 7 (T1 is wr with T2) and 8 (T1 is rw with Tm), for T2 and Tm apart; for one job both 7 and 8.
    "R0 W1 | W0 W2 | R2 R1",
    "R0 W1 W3 | W0 W2 R3 | R2 R1",
    "R0 W1 R3 | W0 W2 | R2 R1 W3",
    "R0 W1 | W0 R1",
];

pub fn cases() -> Vec<Question> {
    let mut cases = Vec::new();
    for jobs in TELLING {
        let sheet = known::at(Level::Rc, jobs);
        for levels in lists(sheet.jobs.len()) {
            cases.extend(asked(&sheet, &levels));
            cases.extend(asked(&beside_idle(&sheet), &[&[Level::Si], levels.as_slice(), &[Level::Rc; 4]].concat()));
        }
        for sheet in [beside_idle(&sheet), sheet] {
            let buffer = vec![0xEE; sheet.jobs.len()];
            cases.push(Question::Lowest { sheet: sheet.bytes(), buffer });
        }
    }
    cases
}

/// An idle job before the sheet's jobs, so that their numbers differ, and four behind them.
fn beside_idle(sheet: &Sheet) -> Sheet {
    let idle = known::at(Level::Rc, "R9").jobs;
    let jobs = [idle.clone(), sheet.jobs.clone(), [idle.as_slice(); 4].concat()].concat();
    Sheet { objects: 10, jobs }
}

/// The verdict, and every step of the walk.
fn asked(sheet: &Sheet, levels: &[Level]) -> Vec<Question> {
    let mut cases = walk(sheet, levels);
    cases.push(Question::Judge { sheet: sheet.bytes(), levels: bytes(levels) });
    cases
}

/// All jobs at one level; then T1 at SI or SSI beside every choice of SSI for T2 and Tm.
fn lists(jobs: usize) -> Vec<Vec<Level>> {
    let mut lists = LEVELS.map(|level| vec![level; jobs]).to_vec();
    for (t1, t2, tm) in [(1, 2, 2), (2, 0, 0), (2, 2, 0), (2, 0, 2), (0, 2, 2)] {
        let mut list = vec![Level::Rc; jobs];
        (list[0], list[1]) = (LEVELS[t1], LEVELS[t2]);
        if jobs > 2 {
            list[jobs - 1] = LEVELS[tm];
        }
        lists.push(list);
    }
    lists
}
