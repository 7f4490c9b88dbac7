//! Cases for the verdict: every list of levels for the small sheets, and lists that are refused.

use super::{bytes, known, Question};
use crate::lowest::every_list;
use crate::sheet::Sheet;

pub fn cases() -> Vec<Question> {
    let mut cases = every_verdict();
    cases.extend(large_sheets());
    let judge = |(sheet, levels)| Question::Judge { sheet, levels };
    cases.extend(refused_lists().into_iter().map(judge));
    cases
}

fn every_verdict() -> Vec<Question> {
    let mut cases = Vec::new();
    for sheet in known::small() {
        for levels in every_list(sheet.jobs.len()) {
            cases.push(Question::Judge { sheet: sheet.bytes(), levels: bytes(&levels) });
        }
    }
    cases
}

/// All jobs at one level.
fn large_sheets() -> Vec<Question> {
    let sheets = [known::longest(), known::many_short(), known::most_dangers(), known::ring(32, 1), known::ladder()];
    let at = |sheet: &Sheet, level| Question::Judge { sheet: sheet.bytes(), levels: vec![level; sheet.jobs.len()] };
    sheets.iter().flat_map(|sheet| [0, 1, 2].map(|level| at(sheet, level))).collect()
}

/// Sheets with lists of every wrong length, with a level above 2 at each index, and with several faults at once.
pub fn refused_lists() -> Vec<(Vec<u8>, Vec<u8>)> {
    let mut lists = Vec::new();
    for sheet in [known::sheet(":"), known::example(), known::many_short()] {
        let jobs = sheet.jobs.len();
        for length in (0..=40).filter(|length| *length != jobs).chain([255, 256, 4096]) {
            lists.push((sheet.bytes(), vec![1; length]));
        }
        for index in 0..jobs {
            for wrong in [3, 255] {
                let mut levels = vec![2; jobs];
                levels[index..].fill(wrong);
                levels[jobs - 1] = 9;
                lists.push((sheet.bytes(), levels));
            }
        }
    }
    let mut wrong_sheet = known::example().bytes();
    wrong_sheet[10] = 3;
    lists.extend([vec![1, 1], vec![1], vec![3, 1]].map(|levels| (wrong_sheet.clone(), levels)));
    lists.push((known::example().bytes(), vec![3, 3, 3]));
    lists
}
