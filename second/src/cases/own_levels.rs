//! Cases for the levels that a sheet itself names: each level at each place, and answer buffers that are just long
//! enough or not.

use super::known;
use super::lowering::pattern;
use crate::questions::Question;
use crate::sheet::Sheet;

pub fn cases() -> Vec<Question> {
    let mut sheets = known::small();
    sheets.extend([known::longest(), known::many_short(), known::most_dangers(), turned(known::longest())]);
    let mut cases: Vec<Question> = sheets.iter().flat_map(about_the_number_of_jobs).collect();
    let mut wrong = known::example().bytes();
    wrong[29] = 2;
    for sheet in [known::example().bytes(), wrong, Vec::new()] {
        for length in [0, 1, 2, 40, 4096] {
            cases.push(Question::Levels { sheet: sheet.clone(), buffer: pattern(length) });
        }
    }
    cases
}

/// Buffers one byte short, just long enough and one byte longer, and an empty one.
fn about_the_number_of_jobs(sheet: &Sheet) -> Vec<Question> {
    let jobs = sheet.jobs.len();
    let mut lengths = vec![0, jobs.saturating_sub(1), jobs, jobs + 1];
    lengths.dedup();
    let levels = |length| Question::Levels { sheet: sheet.bytes(), buffer: pattern(length) };
    lengths.into_iter().map(levels).collect()
}

/// The jobs in the opposite order.
fn turned(mut sheet: Sheet) -> Sheet {
    sheet.jobs.reverse();
    sheet
}
