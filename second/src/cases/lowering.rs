//! Cases for the lowest levels: answer buffers of every length from 0 to 40 with a pattern, and about 32 for 32 jobs.

use super::known;
use crate::questions::Question;

pub fn cases() -> Vec<Question> {
    let mut sheets: Vec<Vec<u8>> = known::small().iter().map(|sheet| sheet.bytes()).collect();
    let mut wrong = known::example().bytes();
    wrong[15] = 0;
    sheets.push(wrong);
    let mut cases = Vec::new();
    for sheet in sheets {
        for length in 0..=40 {
            cases.push(Question::Lowest { sheet: sheet.clone(), buffer: pattern(length) });
        }
    }
    let large = [known::many_short(), known::ring(32, 1), known::longest(), known::most_dangers(), known::ladder()];
    for sheet in large {
        for length in [0, 31, 32, 33] {
            cases.push(Question::Lowest { sheet: sheet.bytes(), buffer: pattern(length) });
        }
    }
    cases.push(Question::Lowest { sheet: known::example().bytes(), buffer: pattern(4096) });
    cases.push(Question::Lowest { sheet: vec![0xAA; 4096], buffer: pattern(4096) });
    cases
}

/// Bytes of which none is a level and neighbours differ.
pub fn pattern(length: usize) -> Vec<u8> {
    (0..length).map(|index| 0xA0 + (index * 7 % 80) as u8).collect()
}
