//! Tries every chain: all orders of all sets of jobs, each with every pair that could leave T1 and return to it.

use crate::conflict::{conflicting_pairs, Pair};
use crate::sheet::{Level, Sheet};
use crate::split::{Four, Split, View};
use std::collections::BTreeMap;

/// Every split whose chain has conflicting pairs, whatever the levels.
pub struct EveryChain<'a> {
    sheet: &'a Sheet,
    splits: Vec<Split>,
}

impl<'a> EveryChain<'a> {
    pub fn new(sheet: &'a Sheet) -> EveryChain<'a> {
        let mut splits = Vec::new();
        for t1 in sheet.numbers() {
            for chain in every_order(sheet, t1, &[]) {
                splits.extend(every_split(sheet, t1, &chain));
            }
        }
        EveryChain { sheet, splits }
    }

    fn is_danger(&self, levels: &[Level], split: &Split) -> bool {
        View { sheet: self.sheet, levels, split }.is_danger()
    }

    pub fn robust(&self, levels: &[Level]) -> bool {
        !self.splits.iter().any(|split| self.is_danger(levels, split))
    }

    /// Each danger once, in rising order, with the chain shown: of all its splits the one that comes first.
    pub fn dangers(&self, levels: &[Level]) -> Vec<Split> {
        let mut shown: BTreeMap<Four, &Split> = BTreeMap::new();
        for split in self.splits.iter().filter(|split| self.is_danger(levels, split)) {
            let kept = shown.entry(split.four()).or_insert(split);
            if rank(split) < rank(kept) {
                *kept = split;
            }
        }
        shown.into_values().cloned().collect()
    }
}

/// Shortest chain, then lowest job numbers, then lowest pairs (document 01, "The walk and the chain shown").
fn rank(split: &Split) -> (usize, &[usize], &[Pair]) {
    (split.chain.len(), &split.chain, &split.pairs)
}

/// Every list of one or more distinct jobs without T1 that goes on from `start`.
fn every_order(sheet: &Sheet, t1: usize, start: &[usize]) -> Vec<Vec<usize>> {
    let mut lists = Vec::new();
    for job in sheet.numbers().filter(|job| *job != t1 && !start.contains(job)) {
        let longer = [start, &[job]].concat();
        lists.extend(every_order(sheet, t1, &longer));
        lists.push(longer);
    }
    lists
}

/// Every split by this chain. No condition speaks of the pairs between two jobs of the chain, so the lowest will do
/// there; none if two neighbours have no conflict.
fn every_split(sheet: &Sheet, t1: usize, chain: &[usize]) -> Vec<Split> {
    let pairs_of = |earlier: usize, later: usize| conflicting_pairs(sheet.job(earlier), sheet.job(later));
    let between: Vec<Pair> = chain.windows(2).filter_map(|two| pairs_of(two[0], two[1]).first().copied()).collect();
    if between.len() + 1 < chain.len() {
        return Vec::new();
    }
    let mut splits = Vec::new();
    for leaving in pairs_of(t1, chain[0]) {
        for returning in pairs_of(chain[chain.len() - 1], t1) {
            let pairs = [&[leaving], between.as_slice(), &[returning]].concat();
            splits.push(Split { t1, chain: chain.to_vec(), pairs });
        }
    }
    splits
}
