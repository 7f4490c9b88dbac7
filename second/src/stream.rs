//! The question stream, written and answered (docs/REPLIES.md).

use crate::questions::Question;

pub const MOST_QUESTIONS: usize = 100_000;
pub const MOST_BYTES: usize = 4096;

pub fn write(questions: &[Question]) -> Vec<u8> {
    let mut stream = (questions.len() as u32).to_be_bytes().to_vec();
    for question in questions {
        write_question(question, &mut stream);
    }
    stream
}

fn write_question(question: &Question, stream: &mut Vec<u8>) {
    let parts: Vec<&[u8]> = match question {
        Question::Read { sheet } => vec![sheet],
        Question::Judge { sheet, levels } => vec![sheet, levels],
        Question::Next { sheet, levels, above } => vec![sheet, levels, above],
        Question::Lowest { sheet, buffer } | Question::Levels { sheet, buffer } => vec![sheet, buffer],
    };
    stream.push(question.kind());
    for part in &parts {
        stream.extend((part.len() as u16).to_be_bytes());
    }
    stream.extend(parts.concat());
}

/// The question of that number in words, for a reader who looks for a difference.
pub fn nth(stream: &[u8], number: usize) -> String {
    let mut left = stream;
    let mut question = take(&mut left, 4).map(|_| None);
    for _ in 0..number {
        question = question.and_then(|_| read_question(&mut left).map(Some));
    }
    match question {
        Ok(Some(question)) => format!("{question:02x?}\n"),
        _ => format!("no question {number}\n"),
    }
}

/// What ends the answers before their time.
#[derive(Clone, Copy, Debug)]
enum Fault {
    Cut,
    Malformed,
}

impl Fault {
    fn line(self, question: usize) -> String {
        let word = match self {
            Fault::Cut => "cut",
            Fault::Malformed => "malformed",
        };
        format!("{word} at question {question}\n")
    }
}

/// The lines that are due for the stream, each worked out when it is asked for.
pub fn answers(stream: &[u8]) -> impl Iterator<Item = String> {
    let mut questions = Vec::new();
    let fault = read_all(stream, &mut questions).err();
    questions.into_iter().map(|question| question.answer() + "\n").chain(fault)
}

/// All questions before the fault, if there is one; then the line that tells of it.
fn read_all(stream: &[u8], questions: &mut Vec<Question>) -> Result<(), String> {
    let mut left = stream;
    let count = read_count(&mut left).map_err(|fault| fault.line(0))?;
    for number in 1..=count {
        questions.push(read_question(&mut left).map_err(|fault| fault.line(number))?);
    }
    if left.is_empty() {
        Ok(())
    } else {
        Err(Fault::Malformed.line(count + 1))
    }
}

fn read_count(left: &mut &[u8]) -> Result<usize, Fault> {
    let count = take(left, 4)?;
    let count = u32::from_be_bytes([count[0], count[1], count[2], count[3]]) as usize;
    if count > MOST_QUESTIONS {
        return Err(Fault::Malformed);
    }
    Ok(count)
}

fn read_question(left: &mut &[u8]) -> Result<Question, Fault> {
    let kind = take(left, 1)?[0];
    let parts_of_kind = match kind {
        1 => 1,
        2 | 4 | 5 => 2,
        3 => 3,
        _ => return Err(Fault::Malformed),
    };
    let lengths = take(left, 2 * parts_of_kind)?;
    let lengths: Vec<usize> = lengths.chunks(2).map(|two| usize::from(two[0]) * 256 + usize::from(two[1])).collect();
    if lengths.iter().any(|length| *length > MOST_BYTES) || kind == 3 && lengths[2] != 4 {
        return Err(Fault::Malformed);
    }
    let mut parts = Vec::new();
    for length in lengths {
        parts.push(take(left, length)?.to_vec());
    }
    Ok(question(kind, parts))
}

fn question(kind: u8, parts: Vec<Vec<u8>>) -> Question {
    let mut parts = parts.into_iter();
    let mut part = || parts.next().expect("as many parts as the kind has");
    match kind {
        1 => Question::Read { sheet: part() },
        2 => Question::Judge { sheet: part(), levels: part() },
        3 => Question::Next { sheet: part(), levels: part(), above: four_bytes(&part()) },
        4 => Question::Lowest { sheet: part(), buffer: part() },
        _ => Question::Levels { sheet: part(), buffer: part() },
    }
}

fn four_bytes(bytes: &[u8]) -> [u8; 4] {
    [bytes[0], bytes[1], bytes[2], bytes[3]]
}

fn take<'a>(left: &mut &'a [u8], length: usize) -> Result<&'a [u8], Fault> {
    if left.len() < length {
        return Err(Fault::Cut);
    }
    let (taken, rest) = left.split_at(length);
    *left = rest;
    Ok(taken)
}
