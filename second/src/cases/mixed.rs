//! Random questions: sheets of many shapes, whole and damaged, with levels, four numbers and buffers that fit or don't.

use super::bytes;
use super::walking::around;
use crate::dangers::Dangers;
use crate::lowest::by_rule;
use crate::making::{any_sheet, damage};
use crate::questions::Question;
use crate::random::Random;
use crate::sheet::{Level, Sheet};

/// So many random questions, each of one of these kinds.
pub fn random(seed: u64, count: usize, kinds: &[u8]) -> Vec<Question> {
    let mut random = Random::new(seed);
    (0..count).map(|_| one(&mut random, kinds)).collect()
}

fn one(random: &mut Random, kinds: &[u8]) -> Question {
    let sheet = any_sheet(random);
    let kind = *random.pick(kinds);
    let bytes = some_bytes(random, &sheet, if kind == 1 { 50 } else { 5 });
    match kind {
        1 => Question::Read { sheet: bytes },
        2 => Question::Judge { sheet: bytes, levels: some_levels(random, &sheet) },
        3 => {
            let levels = some_levels(random, &sheet);
            let above = some_start(random, &sheet, &levels);
            Question::Next { sheet: bytes, levels, above }
        }
        4 => Question::Lowest { sheet: bytes, buffer: some_buffer(random, sheet.jobs.len()) },
        _ => Question::Levels { sheet: bytes, buffer: some_buffer(random, sheet.jobs.len()) },
    }
}

/// The sheet's bytes, so many of a hundred damaged.
fn some_bytes(random: &mut Random, sheet: &Sheet, damaged: usize) -> Vec<u8> {
    let mut bytes = sheet.bytes();
    if random.chance(damaged) {
        damage(random, &mut bytes);
    }
    bytes
}

/// The sheet's own levels, others, its lowest ones, those with one job lowered, or a list that is refused.
fn some_levels(random: &mut Random, sheet: &Sheet) -> Vec<u8> {
    let jobs = sheet.jobs.len();
    let mut levels = match random.below(10) {
        0..3 => bytes(&sheet.levels()),
        3..5 => (0..jobs).map(|_| random.below(3) as u8).collect(),
        5 => (0..jobs).map(|_| random.below(2) as u8).collect(),
        6 | 7 => bytes(&lowest(sheet)),
        _ => one_lowered(random, lowest(sheet)),
    };
    match random.below(20) {
        0 => levels.resize(random.below(40), 1),
        1 if jobs > 0 => levels[random.below(jobs)] = random.within(3, 255) as u8,
        _ => {}
    }
    levels
}

fn lowest(sheet: &Sheet) -> Vec<Level> {
    by_rule(sheet.jobs.len(), &Dangers::new(sheet)).0
}

/// One of the jobs above RC, if there are any, gets a lower level.
fn one_lowered(random: &mut Random, levels: Vec<Level>) -> Vec<u8> {
    let above: Vec<usize> = (0..levels.len()).filter(|job| levels[*job] > Level::Rc).collect();
    let mut levels = bytes(&levels);
    if !above.is_empty() {
        let job = *random.pick(&above);
        levels[job] = random.below(usize::from(levels[job])) as u8;
    }
    levels
}

/// Four numbers: zeros, at or beside a danger, or anything.
fn some_start(random: &mut Random, sheet: &Sheet, levels: &[u8]) -> [u8; 4] {
    let anything = [0; 4].map(|_: u8| random.byte());
    let near = [0; 4].map(|_: u8| random.below(sheet.jobs.len() + 2) as u8);
    let choice = random.below(10);
    let levels: Option<Vec<Level>> = levels.iter().map(|level| Level::from_byte(*level)).collect();
    let fitting = levels.filter(|levels| levels.len() == sheet.jobs.len());
    let dangers = fitting.map_or(Vec::new(), |levels| Dangers::new(sheet).all(&levels));
    match choice {
        0 | 1 => [0, 0, 0, 0],
        2 => near,
        3 => anything,
        _ if dangers.is_empty() => near,
        4..7 => random.pick(&dangers).four().map(|number| number as u8),
        _ => {
            let four = random.pick(&dangers).four().map(|number| number as u8);
            *random.pick(&around(four))
        }
    }
}

/// A buffer of random bytes, mostly long enough for so many jobs.
fn some_buffer(random: &mut Random, jobs: usize) -> Vec<u8> {
    let length = match random.below(10) {
        0 => random.below(jobs + 1),
        1 => random.below(48),
        _ => jobs + random.below(4),
    };
    random.bytes(length)
}
