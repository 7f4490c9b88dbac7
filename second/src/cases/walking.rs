//! Cases for the walk: four numbers at and around every danger of the small sheets, far ends of the large ones.

use super::judging::refused_lists;
use super::{bytes, known, Question};
use crate::dangers::Dangers;
use crate::sheet::{Level, Sheet, LEVELS};

pub fn cases() -> Vec<Question> {
    let mut cases = Vec::new();
    for sheet in known::small() {
        let mut lists = LEVELS.map(|level| vec![level; sheet.jobs.len()]).to_vec();
        lists.push(sheet.levels());
        lists.dedup();
        for levels in lists {
            cases.extend(around_all(&sheet, &levels));
        }
    }
    cases.extend(large_sheets());
    let next = |(sheet, levels)| Question::Next { sheet, levels, above: [0, 0, 0, 0] };
    cases.extend(refused_lists().into_iter().map(next));
    cases
}

/// Every step of the walk, from its start to the end.
pub fn walk(sheet: &Sheet, levels: &[Level]) -> Vec<Question> {
    let mut starts = vec![[0; 4]];
    starts.extend(Dangers::new(sheet).all(levels).iter().map(|split| split.four().map(|number| number as u8)));
    let next = |above| Question::Next { sheet: sheet.bytes(), levels: bytes(levels), above };
    starts.into_iter().map(next).collect()
}

fn around_all(sheet: &Sheet, levels: &[Level]) -> Vec<Question> {
    let dangers = Dangers::new(sheet).all(levels);
    let mut starts = vec![[0, 0, 0, 0], [0, 0, 0, 1], [0, 255, 255, 255], [1, 0, 0, 0], [255, 255, 255, 255]];
    for split in dangers {
        starts.extend(around(split.four().map(|number| number as u8)));
    }
    starts.sort();
    starts.dedup();
    let next = |above| Question::Next { sheet: sheet.bytes(), levels: bytes(levels), above };
    starts.into_iter().map(next).collect()
}

/// The four numbers, and each of them one lower, one higher, at 0 and at 255.
pub fn around(four: [u8; 4]) -> Vec<[u8; 4]> {
    let mut all = vec![four];
    for place in 0..4 {
        for new in [four[place] - 1, four[place] + 1, 0, 255] {
            let mut other = four;
            other[place] = new;
            all.push(other);
        }
    }
    all
}

fn large_sheets() -> Vec<Question> {
    let mut cases = Vec::new();
    let starts = [[0, 0, 0, 0], [16, 3, 17, 5], [31, 2, 30, 30], [32, 8, 31, 30], [32, 8, 31, 31], [32, 255, 0, 0]];
    for sheet in [known::most_dangers(), known::ring(32, 1), known::ladder(), known::longest()] {
        for above in starts {
            let levels = bytes(&sheet.levels());
            cases.push(Question::Next { sheet: sheet.bytes(), levels, above });
        }
    }
    cases
}
