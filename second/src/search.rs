//! A plain search for sheets that are too large for trying every chain. It rests on three observations, which the
//! tests hold against trying every chain: T2 and Tm can be judged apart but for condition 6 and the links between
//! them; those links go through jobs that don't conflict with T1; and a shortest chain never comes twice to one job.

use crate::conflict::{conflicting_pairs, jobs_conflict, rw, some, wr, ww, Pair};
use crate::sheet::{Kind, Level, Sheet};
use crate::split::{Four, Split};

/// More links than any chain has.
const FAR: usize = 1000;

/// For one split job: fewest links from one job to another through jobs that don't conflict with it.
type Distances = Vec<Vec<usize>>;

pub struct Search<'a> {
    sheet: &'a Sheet,
    conflict: Vec<Vec<bool>>,
    distances: Vec<Distances>,
}

impl<'a> Search<'a> {
    pub fn new(sheet: &'a Sheet) -> Search<'a> {
        let row = |one| sheet.jobs.iter().map(|other| jobs_conflict(one, other)).collect();
        let conflict: Vec<Vec<bool>> = sheet.jobs.iter().map(row).collect();
        let distances = (0..sheet.jobs.len()).map(|t1| distances(&conflict, t1)).collect();
        Search { sheet, conflict, distances }
    }

    pub fn robust(&self, levels: &[Level]) -> bool {
        self.first_above(levels, [0, 0, 0, 0]).is_none()
    }

    pub fn dangers(&self, levels: &[Level]) -> Vec<Split> {
        let mut all = Vec::new();
        for (t1, b1) in self.split_points() {
            all.extend(self.dangers_at(levels, t1, b1).iter().map(|four| self.shown(levels, *four)));
        }
        all
    }

    /// The first danger above the four numbers.
    pub fn next(&self, levels: &[Level], above: Four) -> Option<Split> {
        self.first_above(levels, above).map(|four| self.shown(levels, four))
    }

    fn first_above(&self, levels: &[Level], above: Four) -> Option<Four> {
        let points = self.split_points().into_iter().filter(|&(t1, b1)| [t1, b1] >= [above[0], above[1]]);
        points.flat_map(|(t1, b1)| self.dangers_at(levels, t1, b1)).find(|four| *four > above)
    }

    /// Every split job with every operation of it.
    fn split_points(&self) -> Vec<(usize, usize)> {
        let operations = |t1: usize| (1..=self.sheet.job(t1).operations.len()).map(move |b1| (t1, b1));
        self.sheet.numbers().flat_map(operations).collect()
    }

    fn dangers_at(&self, levels: &[Level], t1: usize, b1: usize) -> Vec<Four> {
        let others = || self.sheet.numbers().filter(move |t| *t != t1);
        let firsts: Vec<usize> = others().filter(|t2| self.may_be_first(levels, t1, b1, *t2)).collect();
        if firsts.is_empty() {
            return Vec::new();
        }
        let lasts: Vec<usize> = others().filter(|tm| self.may_be_last(levels, t1, b1, *tm)).collect();
        let mut found = Vec::new();
        for &t2 in &firsts {
            for &tm in &lasts {
                let all_ssi = [t1, t2, tm].iter().all(|t| levels[t - 1] == Level::Ssi);
                if !all_ssi && self.links(t1, t2, tm) < FAR {
                    found.push([t1, b1, t2, tm]);
                }
            }
        }
        found
    }

    /// What the conditions ask of T2: 2 and 3, 4, 7.
    fn may_be_first(&self, levels: &[Level], t1: usize, b1: usize, t2: usize) -> bool {
        let split = &self.sheet.job(t1).operations;
        let other = &self.sheet.job(t2).operations;
        let both_ssi = levels[t1 - 1] == Level::Ssi && levels[t2 - 1] == Level::Ssi;
        some(rw, &split[b1 - 1..b1], other)
            && self.free_of_ww(levels, t1, b1, t2)
            && !(both_ssi && some(wr, split, other))
    }

    /// What the conditions ask of Tm: 2 and 3, 5, 8.
    fn may_be_last(&self, levels: &[Level], t1: usize, b1: usize, tm: usize) -> bool {
        let split = &self.sheet.job(t1).operations;
        let other = &self.sheet.job(tm).operations;
        let both_ssi = levels[t1 - 1] == Level::Ssi && levels[tm - 1] == Level::Ssi;
        self.returning(levels, t1, b1, tm).is_some()
            && self.free_of_ww(levels, t1, b1, tm)
            && !(both_ssi && some(rw, split, other))
    }

    fn free_of_ww(&self, levels: &[Level], t1: usize, b1: usize, other: usize) -> bool {
        let split = &self.sheet.job(t1).operations;
        let watched = if levels[t1 - 1] == Level::Rc { &split[..b1] } else { &split[..] };
        !some(ww, watched, &self.sheet.job(other).operations)
    }

    /// The lowest pair that meets condition 5.
    fn returning(&self, levels: &[Level], t1: usize, b1: usize, tm: usize) -> Option<Pair> {
        let (split, last) = (self.sheet.job(t1), self.sheet.job(tm));
        let rc = levels[t1 - 1] == Level::Rc;
        conflicting_pairs(last, split)
            .into_iter()
            .find(|&(bm, a1)| rw(last.operations[bm - 1], split.operations[a1 - 1]) || rc && b1 < a1)
    }

    fn links(&self, t1: usize, from: usize, to: usize) -> usize {
        if from == to {
            0
        } else {
            self.distances[t1 - 1][from - 1][to - 1]
        }
    }

    /// The danger with the chain shown and its pairs.
    fn shown(&self, levels: &[Level], four: Four) -> Split {
        let [t1, b1, t2, tm] = four;
        let chain = self.chain(t1, t2, tm);
        let object = self.sheet.job(t1).operations[b1 - 1].object;
        let a2 = self.sheet.job(t2).operations.iter().position(|a| a.kind == Kind::Write && a.object == object);
        let mut pairs = vec![(b1, a2.expect("T2 writes b1's object") + 1)];
        for two in chain.windows(2) {
            pairs.push(conflicting_pairs(self.sheet.job(two[0]), self.sheet.job(two[1]))[0]);
        }
        pairs.push(self.returning(levels, t1, b1, tm).expect("Tm returns to T1"));
        Split { t1, chain, pairs }
    }

    /// The shortest chain, lowest of equals: each step takes the lowest job from which the rest is one link shorter.
    fn chain(&self, t1: usize, t2: usize, tm: usize) -> Vec<usize> {
        let mut chain = vec![t2];
        let mut at = t2;
        while at != tm {
            let left = self.links(t1, at, tm) - 1;
            let goes_on = |job: &usize| {
                let free = *job == tm || !self.conflict[t1 - 1][job - 1];
                *job != t1 && free && self.conflict[at - 1][job - 1] && self.links(t1, *job, tm) == left
            };
            at = self.sheet.numbers().find(goes_on).expect("a chain of that length goes on");
            chain.push(at);
        }
        chain
    }
}

/// Every middle job in turn shortens what leads through it.
fn distances(conflict: &[Vec<bool>], t1: usize) -> Distances {
    let link = |one: usize, other: usize| if conflict[one][other] { 1 } else { FAR };
    let jobs = 0..conflict.len();
    let mut least: Distances = jobs.clone().map(|one| jobs.clone().map(|other| link(one, other)).collect()).collect();
    for middle in jobs.clone().filter(|job| *job != t1 && !conflict[t1][*job]) {
        for from in jobs.clone() {
            for to in jobs.clone() {
                let through = least[from][middle] + least[middle][to];
                least[from][to] = least[from][to].min(through);
            }
        }
    }
    least
}
