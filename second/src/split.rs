//! A split job with its chain and pairs, and the conditions on them (document 01, "Conflicts and splits"; document
//! 004, definition 3.1). Each condition is a function with its number.

use crate::conflict::{conflict, jobs_conflict, rw, some, wr, ww, Pair};
use crate::sheet::{Job, Level, Operation, Sheet};

/// T1; the chain T2 .. Tm; the pairs (b1, a2), (b2, a3), .. , (bm, a1).
#[derive(Clone, Debug, PartialEq, Eq)]
pub struct Split {
    pub t1: usize,
    pub chain: Vec<usize>,
    pub pairs: Vec<Pair>,
}

/// T1, the number of b1, T2, Tm.
pub type Four = [usize; 4];

impl Split {
    pub fn t2(&self) -> usize {
        self.chain[0]
    }

    pub fn tm(&self) -> usize {
        self.chain[self.chain.len() - 1]
    }

    /// The number of b1 in T1.
    pub fn b1(&self) -> usize {
        self.pairs[0].0
    }

    /// The number of a1 in T1.
    pub fn a1(&self) -> usize {
        self.pairs[self.pairs.len() - 1].1
    }

    pub fn four(&self) -> Four {
        [self.t1, self.b1(), self.t2(), self.tm()]
    }

    /// The jobs from T1 along the chain and back to T1.
    fn round(&self) -> Vec<usize> {
        let mut round = vec![self.t1];
        round.extend(&self.chain);
        round.push(self.t1);
        round
    }

    /// T3 .. T(m-1).
    fn middle(&self) -> &[usize] {
        if self.chain.len() < 3 {
            return &[];
        }
        &self.chain[1..self.chain.len() - 1]
    }
}

/// A split seen with its sheet and levels.
pub struct View<'a> {
    pub sheet: &'a Sheet,
    pub levels: &'a [Level],
    pub split: &'a Split,
}

impl View<'_> {
    /// The split has a chain, and meets all conditions.
    pub fn is_danger(&self) -> bool {
        self.is_chain()
            && self.condition_1()
            && self.condition_2()
            && self.condition_3()
            && self.condition_4()
            && self.condition_5()
            && self.condition_6()
            && self.condition_7()
            && self.condition_8()
    }

    fn is_chain(&self) -> bool {
        let chain = &self.split.chain;
        let distinct = (0..chain.len()).all(|i| !chain[..i].contains(&chain[i]));
        let round = self.split.round();
        let pairs_conflict = (0..self.split.pairs.len()).all(|i| {
            let (b, a) = self.split.pairs[i];
            conflict(self.operation(round[i], b), self.operation(round[i + 1], a))
        });
        distinct && !chain.contains(&self.split.t1) && self.split.pairs.len() == chain.len() + 1 && pairs_conflict
    }

    fn condition_1(&self) -> bool {
        self.split.middle().iter().all(|&t| !jobs_conflict(self.t1(), self.sheet.job(t)))
    }

    fn condition_2(&self) -> bool {
        let prefix = &self.t1().operations[..self.split.b1()];
        !some(ww, prefix, &self.t2().operations) && !some(ww, prefix, &self.tm().operations)
    }

    fn condition_3(&self) -> bool {
        let postfix = &self.t1().operations[self.split.b1()..];
        let free = !some(ww, postfix, &self.t2().operations) && !some(ww, postfix, &self.tm().operations);
        self.level(self.split.t1) == Level::Rc || free
    }

    fn condition_4(&self) -> bool {
        let (b1, a2) = self.split.pairs[0];
        rw(self.operation(self.split.t1, b1), self.operation(self.split.t2(), a2))
    }

    fn condition_5(&self) -> bool {
        let (bm, a1) = self.split.pairs[self.split.pairs.len() - 1];
        let returns = rw(self.operation(self.split.tm(), bm), self.operation(self.split.t1, a1));
        returns || self.level(self.split.t1) == Level::Rc && self.split.b1() < self.split.a1()
    }

    fn condition_6(&self) -> bool {
        let three = [self.split.t1, self.split.t2(), self.split.tm()];
        !three.iter().all(|&t| self.level(t) == Level::Ssi)
    }

    fn condition_7(&self) -> bool {
        let both = self.level(self.split.t1) == Level::Ssi && self.level(self.split.t2()) == Level::Ssi;
        !(both && some(wr, &self.t1().operations, &self.t2().operations))
    }

    fn condition_8(&self) -> bool {
        let both = self.level(self.split.t1) == Level::Ssi && self.level(self.split.tm()) == Level::Ssi;
        !(both && some(rw, &self.t1().operations, &self.tm().operations))
    }

    fn level(&self, job: usize) -> Level {
        self.levels[job - 1]
    }

    fn operation(&self, job: usize, number: usize) -> Operation {
        self.sheet.job(job).operations[number - 1]
    }

    fn t1(&self) -> &Job {
        self.sheet.job(self.split.t1)
    }

    fn t2(&self) -> &Job {
        self.sheet.job(self.split.t2())
    }

    fn tm(&self) -> &Job {
        self.sheet.job(self.split.tm())
    }
}
