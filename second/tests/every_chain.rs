//! The plain search says what trying every chain says; and trying every chain with the lowest pairs inside says what
//! trying every chain with every choice of pairs says.

use second::cases::{ladder, longest, most_dangers, ring};
use second::conflict::{conflicting_pairs, Pair};
use second::every::EveryChain;
use second::making::{row_of_jobs, shaped, Shape};
use second::random::Random;
use second::search::Search;
use second::sheet::{Level, Sheet, LEVELS};
use second::split::{Split, View};

fn random_levels(random: &mut Random, sheet: &Sheet) -> Vec<Level> {
    sheet.jobs.iter().map(|_| *random.pick(&LEVELS)).collect()
}

/// Both say the same for these levels: all dangers with chains and pairs, the verdict, and the walk from anywhere.
fn agree(random: &mut Random, sheet: &Sheet, levels: &[Level]) -> usize {
    let (every, search) = (EveryChain::new(sheet), Search::new(sheet));
    let all = every.dangers(levels);
    assert_eq!(search.dangers(levels), all, "{sheet:?} {levels:?}");
    assert_eq!(search.robust(levels), all.is_empty());
    assert_eq!(every.robust(levels), all.is_empty());
    for _ in 0..4 {
        let above = [0; 4].map(|_: usize| random.below(sheet.jobs.len() + 2));
        let due = all.iter().find(|split| split.four() > above);
        assert_eq!(search.next(levels, above).as_ref(), due, "{sheet:?} {levels:?} {above:?}");
    }
    all.len()
}

fn agree_on(seed: u64, count: usize, make: impl Fn(&mut Random) -> Sheet) {
    let mut random = Random::new(seed);
    let mut dangerous = 0;
    for _ in 0..count {
        let sheet = make(&mut random);
        let levels = random_levels(&mut random, &sheet);
        dangerous += usize::from(agree(&mut random, &sheet, &sheet.levels()) > 0);
        dangerous += usize::from(agree(&mut random, &sheet, &levels) > 0);
    }
    assert!(dangerous > count / 5, "{dangerous} of {count} sheets say something");
}

#[test]
fn search_agrees_on_small_sheets() {
    let shape = Shape { jobs: (2, 4), operations: (1, 4), objects: (1, 5) };
    agree_on(11, 4000, |random| shaped(random, &shape));
}

#[test]
fn search_agrees_on_sheets_of_six_jobs() {
    let shape = Shape { jobs: (5, 6), operations: (1, 3), objects: (3, 9) };
    agree_on(12, 600, |random| shaped(random, &shape));
}

#[test]
fn search_agrees_on_long_jobs() {
    let shape = Shape { jobs: (2, 4), operations: (8, 16), objects: (10, 40) };
    agree_on(13, 300, |random| shaped(random, &shape));
}

#[test]
fn search_agrees_on_rows_of_jobs() {
    let few = |random: &mut Random| loop {
        let sheet = row_of_jobs(random);
        if sheet.jobs.len() <= 7 {
            return sheet;
        }
    };
    agree_on(14, 400, few);
}

/// Every choice of a conflicting pair for each neighbour on the way round.
fn every_choice(lists: &[Vec<Pair>]) -> Vec<Vec<Pair>> {
    let mut choices = vec![Vec::new()];
    for list in lists {
        let longer = |choice: &Vec<Pair>| list.iter().map(|pair| [choice.as_slice(), &[*pair]].concat()).collect();
        choices = choices.iter().flat_map::<Vec<Vec<Pair>>, _>(longer).collect();
    }
    choices
}

/// Every list of distinct numbers up to `jobs` that goes on from `start`.
fn every_list(jobs: usize, start: &[usize]) -> Vec<Vec<usize>> {
    let mut lists = vec![start.to_vec()];
    for job in (1..=jobs).filter(|job| !start.contains(job)) {
        lists.extend(every_list(jobs, &[start, &[job]].concat()));
    }
    lists
}

/// The dangers from nothing but the conditions: all chains, all pairs, and of equals the first.
fn literal_dangers(sheet: &Sheet, levels: &[Level]) -> Vec<Split> {
    let mut found: Vec<Split> = Vec::new();
    for round in every_list(sheet.jobs.len(), &[]).iter().filter(|list| list.len() >= 2) {
        let closed = [round.as_slice(), &round[..1]].concat();
        let pairs_of = |two: &[usize]| conflicting_pairs(sheet.job(two[0]), sheet.job(two[1]));
        for pairs in every_choice(&closed.windows(2).map(pairs_of).collect::<Vec<_>>()) {
            let split = Split { t1: round[0], chain: round[1..].to_vec(), pairs };
            if (View { sheet, levels, split: &split }).is_danger() {
                found.push(split);
            }
        }
    }
    found.sort_by_key(|split| (split.four(), split.chain.len(), split.chain.clone(), split.pairs.clone()));
    found.dedup_by_key(|split| split.four());
    found
}

#[test]
fn every_chain_is_the_definition() {
    let shape = Shape { jobs: (1, 4), operations: (1, 4), objects: (2, 4) };
    let mut random = Random::new(15);
    for _ in 0..600 {
        let sheet = shaped(&mut random, &shape);
        let levels = random_levels(&mut random, &sheet);
        assert_eq!(EveryChain::new(&sheet).dangers(&levels), literal_dangers(&sheet, &levels), "{sheet:?} {levels:?}");
    }
}

#[test]
fn large_sheets() {
    let count = |sheet: &Sheet| Search::new(sheet).dangers(&sheet.levels()).len();
    assert_eq!(count(&most_dangers()), 246_016);
    assert_eq!(count(&longest()), 0);
    let ring = ring(32, 1);
    let around = Search::new(&ring).next(&ring.levels(), [0; 4]).expect("a danger");
    assert_eq!(around.chain.len(), 31);
    let ladder = ladder();
    let up = Search::new(&ladder).next(&ladder.levels(), [0; 4]).expect("a danger");
    let lowest: Vec<usize> = [2].into_iter().chain((0..14).map(|step| 3 + 2 * step)).chain([31]).collect();
    assert_eq!(up.chain, lowest);
}
