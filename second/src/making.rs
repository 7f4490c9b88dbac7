//! Random sheets of many shapes, and damage to their bytes.

use crate::random::Random;
use crate::sheet::{Job, Kind, Level, Operation, Sheet, LEVELS};

/// The bounds of a random sheet.
pub struct Shape {
    pub jobs: (usize, usize),
    pub operations: (usize, usize),
    pub objects: (usize, usize),
}

const TINY: Shape = Shape { jobs: (2, 4), operations: (1, 4), objects: (1, 4) };
const SMALL: Shape = Shape { jobs: (0, 7), operations: (1, 4), objects: (1, 8) };
const MIDDLE: Shape = Shape { jobs: (7, 14), operations: (1, 4), objects: (4, 24) };
const LARGE: Shape = Shape { jobs: (15, 32), operations: (1, 16), objects: (8, 120) };
const FULL: Shape = Shape { jobs: (32, 32), operations: (16, 16), objects: (300, 4096) };

/// A random sheet: mostly small ones, for the sake of a stream's size, and a few of every other shape.
pub fn any_sheet(random: &mut Random) -> Sheet {
    match random.below(100) {
        0..60 => shaped(random, &TINY),
        60..84 => shaped(random, &SMALL),
        84..92 => shaped(random, &MIDDLE),
        92..98 => row_of_jobs(random),
        98 => shaped(random, &LARGE),
        _ if random.chance(10) => shaped(random, &FULL),
        _ => shaped(random, &SMALL),
    }
}

pub fn shaped(random: &mut Random, shape: &Shape) -> Sheet {
    let jobs = random.within(shape.jobs.0, shape.jobs.1);
    let objects = random.within(shape.objects.0, shape.objects.1);
    let writes = *random.pick(&[15, 40, 50, 60, 85]);
    let mut sheet = Sheet { objects: objects as u16, jobs: Vec::new() };
    for _ in 0..jobs {
        let wanted = random.within(shape.operations.0, shape.operations.1).min(2 * objects);
        let operations = some_operations(random, wanted, objects, writes);
        sheet.jobs.push(Job { level: Level::Rc, operations });
    }
    set_levels(random, &mut sheet);
    sheet
}

/// Distinct operations, so many of a hundred writes; at most two for each object.
fn some_operations(random: &mut Random, wanted: usize, objects: usize, writes: usize) -> Vec<Operation> {
    let mut operations = Vec::new();
    while operations.len() < wanted {
        let kind = if random.chance(writes) { Kind::Write } else { Kind::Read };
        let operation = Operation { kind, object: random.below(objects) as u16 };
        if !operations.contains(&operation) {
            operations.push(operation);
        }
    }
    operations
}

/// Jobs of which each shares an object with the next one, in a random order: long chains.
pub fn row_of_jobs(random: &mut Random) -> Sheet {
    let jobs = random.within(3, 16);
    let mut operations = vec![Vec::new(); jobs];
    let closed = random.chance(70);
    for link in 0..if closed { jobs } else { jobs - 1 } {
        let both_write = random.chance(15);
        let forward = random.chance(70);
        let one = if forward || both_write { Kind::Write } else { Kind::Read };
        let other = if forward && !both_write { Kind::Read } else { Kind::Write };
        operations[link].push(Operation { kind: one, object: link as u16 });
        operations[(link + 1) % jobs].push(Operation { kind: other, object: link as u16 });
    }
    for list in &mut operations {
        if random.chance(50) {
            list.reverse();
        }
    }
    let level = Level::Rc;
    let mut sheet = Sheet { objects: jobs as u16, jobs: Vec::new() };
    while !operations.is_empty() {
        let operations = operations.remove(random.below(operations.len()));
        sheet.jobs.push(Job { level, operations });
    }
    set_levels(random, &mut sheet);
    sheet
}

/// All jobs at one level, or each at its own.
fn set_levels(random: &mut Random, sheet: &mut Sheet) {
    let one = LEVELS.get(random.below(6)).copied();
    for job in &mut sheet.jobs {
        job.level = one.unwrap_or(*random.pick(&LEVELS));
    }
}

/// One or two faults of the kinds that links and hand-made tools bring in.
pub fn damage(random: &mut Random, bytes: &mut Vec<u8>) {
    for _ in 0..random.within(1, 2) {
        let at = random.below(bytes.len().max(1));
        match random.below(8) {
            0 => bytes.truncate(at),
            1 => bytes.extend([random.byte()]),
            2 => bytes.insert(at, random.byte()),
            3 if !bytes.is_empty() => drop(bytes.remove(at)),
            4 if !bytes.is_empty() => bytes[at] ^= 1 << random.below(8),
            5 if !bytes.is_empty() => bytes[at] = random.below(4) as u8,
            6 if bytes.len() > 7 => bytes[4] = random.byte(),
            7 if at >= 3 && at + 3 <= bytes.len() => bytes.copy_within(at - 3..at, at),
            _ => bytes.push(0x7F),
        }
    }
}
