//! The questions that the proved library is compared on: fixed cases by what they are to show, random ones, and broken
//! streams.

mod broken;
mod chains;
mod judging;
mod known;
mod lowering;
mod mixed;
mod numbers;
mod objects;
mod own_levels;
mod places;
mod reading;
mod refusals;
mod sized;
mod telling;
mod walking;

pub use broken::broken_streams;
pub use known::{ladder, longest, many_short, most_dangers, ring};
pub use mixed::random;

use crate::questions::Question;
use crate::sheet::Level;

/// The kinds of questions that `replies` answers.
pub const KINDS: &[u8] = &[1, 2, 3, 4, 5];

const STORED_SEED: u64 = 1;
const STORED_RANDOM_OF_EACH_KIND: usize = 1000;

/// The stored stream: the fixed cases of these kinds, then random questions. Short sheets come first, since they take
/// the least time: a comparison that fails fails soon.
pub fn stored(kinds: &[u8]) -> Vec<Question> {
    let groups = [
        telling::cases(),
        chains::cases(),
        objects::cases(),
        numbers::cases(),
        refusals::cases(),
        own_levels::cases(),
        judging::cases(),
        walking::cases(),
        reading::cases(),
        places::cases(),
        lowering::cases(),
    ];
    let mut questions: Vec<Question> = groups.into_iter().flatten().collect();
    questions.retain(|question| kinds.contains(&question.kind()));
    questions.sort_by_key(|question| question.sheet().len());
    questions.extend(random(STORED_SEED, kinds.len() * STORED_RANDOM_OF_EACH_KIND, kinds));
    questions
}

fn bytes(levels: &[Level]) -> Vec<u8> {
    levels.iter().map(|level| level.byte()).collect()
}
