//! Streams that are cut or malformed, each in one of the ways that docs/REPLIES.md lists, and whole ones beside them,
//! some about as long as an input buffer.

use super::{known, sized, Question};
use crate::stream::write;

/// The streams for questions of these kinds, each with a name.
pub fn broken_streams(kinds: &[u8]) -> Vec<(String, Vec<u8>)> {
    let questions: Vec<Question> = kinds.iter().map(|kind| question(*kind)).collect();
    let good = write(&questions);
    let mut streams: Vec<Vec<u8>> = (0..=good.len()).map(|length| good[..length].to_vec()).collect();
    streams.push([good.as_slice(), &[1]].concat());
    let one_more = questions.len() as u32 + 1;
    let counts = [0, 1, one_more, 99_999, 100_000, 100_001, 0x0100_0000, u32::MAX];
    streams.extend(counts.map(|count| changed(&good, 0, &count.to_be_bytes())));
    streams.extend([0, 6, 255].map(|kind| changed(&good, 4, &[kind])));
    for kind in kinds {
        streams.extend(wrong_lengths(*kind));
    }
    streams.extend(sized::streams(&questions));
    let name = |(number, stream)| (format!("{number:03}"), stream);
    streams.into_iter().enumerate().map(name).collect()
}

fn question(kind: u8) -> Question {
    let sheet = known::sheet("SSI : R1 W0").bytes();
    let levels = vec![1];
    match kind {
        1 => Question::Read { sheet },
        2 => Question::Judge { sheet, levels },
        3 => Question::Next { sheet, levels, above: [1, 1, 1, 1] },
        4 => Question::Lowest { sheet, buffer: vec![0xEE; 2] },
        _ => Question::Levels { sheet, buffer: vec![0xEE; 2] },
    }
}

fn changed(good: &[u8], place: usize, new: &[u8]) -> Vec<u8> {
    let mut stream = good.to_vec();
    stream[place..place + new.len()].copy_from_slice(new);
    stream
}

/// One question with each of its lengths in turn at and about its bounds, before very many bytes.
fn wrong_lengths(kind: u8) -> Vec<Vec<u8>> {
    let good = [write(&[question(kind)]), vec![1; 3 * 4096]].concat();
    let parts = [1, 2, 3, 2, 2][usize::from(kind) - 1];
    let lengths = [0, 3, 4, 5, 4095, 4096, 4097, 0xFFFF_u16];
    let all = (0..parts).flat_map(|part| lengths.map(|length| (part, length)));
    all.map(|(part, length)| changed(&good, 5 + 2 * part, &length.to_be_bytes())).collect()
}
