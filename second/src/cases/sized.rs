//! Streams that end, or in which a question ends, at or beside the end of the buffer that a program reads its input by
//! (`replies` has one of 65,536 bytes): whole ones, ones with a byte more, and ones with a question less than declared.

use super::{known, Question};
use crate::stream::write;

const INPUT_BUFFER: usize = 65_536;

/// Streams about one and two buffers long, and streams in which a buffer ends within one of these questions.
pub fn streams(parted: &[Question]) -> Vec<Vec<u8>> {
    let mut streams = Vec::new();
    for length in [INPUT_BUFFER, 2 * INPUT_BUFFER].into_iter().flat_map(|buffers| buffers - 1..=buffers + 1) {
        let whole = write(&questions_up_to(length));
        let more = [whole.as_slice(), &[1]].concat();
        let count = u32::from_be_bytes([whole[0], whole[1], whole[2], whole[3]]) + 1;
        let less = [count.to_be_bytes().as_slice(), &whole[4..]].concat();
        streams.extend([whole, more, less]);
    }
    // The buffer ends before each byte of a question's kind and lengths in turn, and behind them.
    for before in 0..8 {
        for question in parted {
            let start = questions_up_to(INPUT_BUFFER - before);
            streams.push(write(&[start.as_slice(), &[question.clone()]].concat()));
        }
    }
    streams
}

/// Questions whose stream has this length: some with the longest answer, which fill the buffer that answers go to, then
/// sheets that are read.
fn questions_up_to(length: usize) -> Vec<Question> {
    let refused = Question::Lowest { sheet: vec![0x7F; 9], buffer: vec![0xA5; 4096] };
    let mut questions = vec![refused; 5];
    let sheet = known::longest().bytes();
    let mut left = length - write(&questions).len();
    while left > 2 * (3 + sheet.len()) {
        questions.push(Question::Read { sheet: sheet.clone() });
        left -= 3 + sheet.len();
    }
    questions.push(Question::Read { sheet: vec![0x01; left - 3] });
    questions
}
