//! When operations of different jobs, and jobs, conflict (document 01, "Conflicts and splits").

use crate::sheet::{Job, Kind, Operation};

pub fn ww(first: Operation, second: Operation) -> bool {
    kinds(first, second, Kind::Write, Kind::Write)
}

pub fn wr(first: Operation, second: Operation) -> bool {
    kinds(first, second, Kind::Write, Kind::Read)
}

pub fn rw(first: Operation, second: Operation) -> bool {
    kinds(first, second, Kind::Read, Kind::Write)
}

fn kinds(first: Operation, second: Operation, of_first: Kind, of_second: Kind) -> bool {
    first.object == second.object && first.kind == of_first && second.kind == of_second
}

pub fn conflict(first: Operation, second: Operation) -> bool {
    ww(first, second) || wr(first, second) || rw(first, second)
}

/// Some operation of the first list stands in that relation to some operation of the second.
pub fn some(relation: fn(Operation, Operation) -> bool, first: &[Operation], second: &[Operation]) -> bool {
    first.iter().any(|&b| second.iter().any(|&a| relation(b, a)))
}

pub fn jobs_conflict(first: &Job, second: &Job) -> bool {
    some(conflict, &first.operations, &second.operations)
}

/// The numbers of two operations, the earlier job's and the later one's.
pub type Pair = (usize, usize);

/// Every conflicting pair of two jobs, lowest first, the earlier job's operation compared first.
pub fn conflicting_pairs(earlier: &Job, later: &Job) -> Vec<Pair> {
    let mut pairs = Vec::new();
    for (i, &b) in earlier.operations.iter().enumerate() {
        for (k, &a) in later.operations.iter().enumerate() {
            if conflict(b, a) {
                pairs.push((i + 1, k + 1));
            }
        }
    }
    pairs
}
