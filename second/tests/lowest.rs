//! The lowest levels: exactly one list meets the definition, and the rule finds it with the number asked.

use second::dangers::Dangers;
use second::every::EveryChain;
use second::lowest::{by_definition, by_rule, lowest};
use second::making::{shaped, Shape};
use second::random::Random;
use second::search::Search;

#[test]
fn rule_and_definition_agree() {
    let shape = Shape { jobs: (0, 4), operations: (1, 4), objects: (1, 5) };
    let mut random = Random::new(21);
    for _ in 0..1500 {
        let sheet = shaped(&mut random, &shape);
        let jobs = sheet.jobs.len();
        let (every, plain) = (Dangers::Every(EveryChain::new(&sheet)), Dangers::Plain(Search::new(&sheet)));
        let (levels, asked) = by_rule(jobs, &every);
        assert_eq!(by_definition(jobs, &every), std::slice::from_ref(&levels), "{sheet:?}");
        assert_eq!(lowest(jobs, &plain), (levels, asked), "{sheet:?}");
    }
}
