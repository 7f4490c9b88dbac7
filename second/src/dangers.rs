//! The dangers of a sheet, by trying every chain where that is possible in good time, otherwise by the plain search.

use crate::every::EveryChain;
use crate::search::Search;
use crate::sheet::{Level, Sheet};
use crate::split::{Four, Split};

/// Up to so many jobs every chain is tried.
pub const FEW_JOBS: usize = 5;

pub enum Dangers<'a> {
    Every(EveryChain<'a>),
    Plain(Search<'a>),
}

impl<'a> Dangers<'a> {
    pub fn new(sheet: &'a Sheet) -> Dangers<'a> {
        if sheet.jobs.len() <= FEW_JOBS {
            Dangers::Every(EveryChain::new(sheet))
        } else {
            Dangers::Plain(Search::new(sheet))
        }
    }

    pub fn robust(&self, levels: &[Level]) -> bool {
        match self {
            Dangers::Every(every) => every.robust(levels),
            Dangers::Plain(search) => search.robust(levels),
        }
    }

    /// Each danger once, in rising order, with the chain shown and its pairs.
    pub fn all(&self, levels: &[Level]) -> Vec<Split> {
        match self {
            Dangers::Every(every) => every.dangers(levels),
            Dangers::Plain(search) => search.dangers(levels),
        }
    }

    /// The first danger above the four numbers.
    pub fn next(&self, levels: &[Level], above: Four) -> Option<Split> {
        match self {
            Dangers::Every(every) => every.dangers(levels).into_iter().find(|split| split.four() > above),
            Dangers::Plain(search) => search.next(levels, above),
        }
    }
}
