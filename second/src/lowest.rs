//! The lowest levels by their definition and by the rule of the number asked (document 01, "Lowest levels and the
//! number asked").

use crate::dangers::Dangers;
use crate::sheet::{Level, LEVELS};

/// Up to so many jobs every list of levels is tried.
pub const FEW_JOBS: usize = 4;

/// The lowest levels and the number asked: by the rule, and for few jobs by the definition too.
pub fn lowest(jobs: usize, dangers: &Dangers) -> (Vec<Level>, usize) {
    let (levels, asked) = by_rule(jobs, dangers);
    if jobs <= FEW_JOBS {
        assert_eq!(by_definition(jobs, dangers), std::slice::from_ref(&levels), "the rule finds the only list");
    }
    let above = levels.iter().filter(|level| **level > Level::Rc).count();
    assert_eq!(asked, jobs + above, "the number asked is jobs plus jobs above RC");
    (levels, asked)
}

/// All lists that are robust and in which no single job can be set to any lower level.
pub fn by_definition(jobs: usize, dangers: &Dangers) -> Vec<Vec<Level>> {
    let stays = |levels: &Vec<Level>| dangers.robust(levels) && !lower_ones(levels).iter().any(|l| dangers.robust(l));
    every_list(jobs).into_iter().filter(stays).collect()
}

/// The list with one job at one lower level, in every way.
fn lower_ones(levels: &[Level]) -> Vec<Vec<Level>> {
    let mut lists = Vec::new();
    for job in 0..levels.len() {
        for lower in LEVELS.into_iter().filter(|level| *level < levels[job]) {
            let mut list = levels.to_vec();
            list[job] = lower;
            lists.push(list);
        }
    }
    lists
}

/// Every list of levels for so many jobs.
pub fn every_list(jobs: usize) -> Vec<Vec<Level>> {
    let mut lists = vec![Vec::new()];
    for _ in 0..jobs {
        let longer = |list: Vec<Level>| LEVELS.map(|level| [list.as_slice(), &[level]].concat());
        lists = lists.into_iter().flat_map(longer).collect();
    }
    lists
}

/// All jobs start at SSI; each in turn takes the first of RC and SI that is judged robust, otherwise it stays.
pub fn by_rule(jobs: usize, dangers: &Dangers) -> (Vec<Level>, usize) {
    let mut levels = vec![Level::Ssi; jobs];
    let mut asked = 0;
    'jobs: for job in 0..jobs {
        for level in [Level::Rc, Level::Si] {
            levels[job] = level;
            asked += 1;
            if dangers.robust(&levels) {
                continue 'jobs;
            }
        }
        levels[job] = Level::Ssi;
    }
    (levels, asked)
}
