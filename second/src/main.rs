//! The command line of the second program. What it reads comes from standard input.

use second::notation::{parse, show};
use second::reader::read;
use second::{cases, oracle, stream, survey};
use std::io::{BufWriter, Read, Write};
use std::process::ExitCode;

const USAGE: &str = "\
second stored [KINDS]                 the stream of questions that is stored; KINDS as 1,2,3,4,5
second questions SEED COUNT [KINDS]   a stream of so many random questions
second broken FOLDER [KINDS]          streams that are cut, malformed or end at a buffer's size, into files
second answers < stream               the lines that are due
second question N < stream            the question of that number, readable
second survey < sheet                 what `survey` prints
second make 'RC SI : R0 W1 | R1 W0'   the sheet's bytes
second show < sheet                   the sheet as people write it
second most                           the sheet with the most dangers
second oracle [--fast] QUESTION ..    one question about the sheet, in the bench's words";

fn main() -> ExitCode {
    let words: Vec<String> = std::env::args().skip(1).collect();
    let written = answer(&words).and_then(|bytes| {
        let result = std::io::stdout().write_all(&bytes);
        result.map_err(|error| error.to_string())
    });
    match written {
        Ok(()) => ExitCode::SUCCESS,
        Err(message) => {
            eprintln!("second: {message}");
            ExitCode::FAILURE
        }
    }
}

fn answer(words: &[String]) -> Result<Vec<u8>, String> {
    let plain: Vec<&str> = words.iter().map(String::as_str).collect();
    match plain.as_slice() {
        ["stored", kinds @ ..] => Ok(stream::write(&cases::stored(&parse_kinds(kinds)?))),
        ["questions", seed, count, kinds @ ..] => random_stream(seed, count, &parse_kinds(kinds)?),
        ["broken", folder, kinds @ ..] => write_broken(folder, &parse_kinds(kinds)?),
        ["answers"] => print_answers(&input()?),
        ["question", number] => Ok(stream::nth(&input()?, parse_number(number)?).into_bytes()),
        ["survey"] => {
            let bytes = input()?;
            Ok(survey::survey(&bytes[..bytes.len().min(survey::MOST_BYTES)]).into_bytes())
        }
        ["make", text] => make(text),
        ["show"] => match read(&input()?) {
            Ok(sheet) => Ok(format!("{}\n", show(&sheet)).into_bytes()),
            Err(refusal) => Err(refusal.to_string()),
        },
        ["most"] => Ok(cases::most_dangers().bytes()),
        ["oracle", ..] => Ok(oracle::oracle(&words[1..], &input()?)?.into_bytes()),
        _ => Err(format!("what is due:\n{USAGE}")),
    }
}

fn random_stream(seed: &str, count: &str, kinds: &[u8]) -> Result<Vec<u8>, String> {
    let count = parse_number(count)?;
    if count > stream::MOST_QUESTIONS {
        return Err(format!("a stream has at most {} questions", stream::MOST_QUESTIONS));
    }
    Ok(stream::write(&cases::random(parse_number(seed)? as u64, count, kinds)))
}

/// Line by line, so that a comparison may stop at the first difference.
fn print_answers(bytes: &[u8]) -> Result<Vec<u8>, String> {
    let mut out = BufWriter::new(std::io::stdout().lock());
    for line in stream::answers(bytes) {
        out.write_all(line.as_bytes()).map_err(|error| error.to_string())?;
    }
    out.flush().map_err(|error| error.to_string())?;
    Ok(Vec::new())
}

/// A sheet that is read, or the reason why the text makes none.
fn make(text: &str) -> Result<Vec<u8>, String> {
    let bytes = parse(text)?.bytes();
    match read(&bytes) {
        Ok(_) => Ok(bytes),
        Err(refusal) => Err(format!("such a sheet is {refusal}")),
    }
}

fn write_broken(folder: &str, kinds: &[u8]) -> Result<Vec<u8>, String> {
    for (name, bytes) in cases::broken_streams(kinds) {
        let path = format!("{folder}/{name}");
        std::fs::write(&path, bytes).map_err(|error| format!("{path}: {error}"))?;
    }
    Ok(Vec::new())
}

/// A list of kinds, or those that `replies` answers if none is given.
fn parse_kinds(words: &[&str]) -> Result<Vec<u8>, String> {
    let kind = |word: &str| word.parse().ok().filter(|kind| cases::KINDS.contains(kind));
    let kinds: Option<Vec<u8>> = match words {
        [] => Some(cases::KINDS.to_vec()),
        [list] => list.split(',').map(kind).collect(),
        _ => None,
    };
    kinds.ok_or(format!("no list of kinds: {}", words.join(" ")))
}

fn parse_number(word: &str) -> Result<usize, String> {
    word.parse().map_err(|_| format!("no number `{word}`"))
}

fn input() -> Result<Vec<u8>, String> {
    let mut bytes = Vec::new();
    std::io::stdin().read_to_end(&mut bytes).map_err(|error| error.to_string())?;
    Ok(bytes)
}
