//! One question about one sheet in the words of the bench, for its comparison of several planners.

use crate::dangers::Dangers;
use crate::every::EveryChain;
use crate::lowest::lowest;
use crate::questions::{pairs_text, read_levels};
use crate::reader::read;
use crate::refusal::{refuse_if, Reason, Refusal};
use crate::search::Search;
use crate::sheet::Sheet;
use crate::split::{Four, Split};
use crate::survey::{danger_text, lowest_text, names_text};

/// The lines for `read`, `levels ROOM`, `judge LEVELS`, `step LEVELS T1 b1 T2 Tm`, `walk LEVELS` or `lowest ROOM`, levels
/// in hexadecimal. `--fast` before it asks for the plain search, otherwise every chain is tried.
pub fn oracle(words: &[String], bytes: &[u8]) -> Result<String, String> {
    let fast = words.first().is_some_and(|word| word == "--fast");
    let words = &words[usize::from(fast)..];
    let sheet = match read(bytes) {
        Ok(sheet) => sheet,
        Err(refusal) => return Ok(format!("{refusal}\n")),
    };
    let dangers = if fast { Dangers::Plain(Search::new(&sheet)) } else { Dangers::Every(EveryChain::new(&sheet)) };
    let words: Vec<&str> = words.iter().map(String::as_str).collect();
    let lines = match words.as_slice() {
        ["read"] => Ok("read\n".to_string()),
        ["levels", room] => levels_line(&sheet, number(room)?),
        ["judge", levels] => judge_line(&sheet, &dangers, &hex(levels)?),
        ["step", levels, t1, b1, t2, tm] => {
            let above = [number(t1)?, number(b1)?, number(t2)?, number(tm)?];
            step_line(&sheet, &dangers, &hex(levels)?, above)
        }
        ["walk", levels] => walk_lines(&sheet, &dangers, &hex(levels)?),
        ["lowest", room] => lowest_line(&sheet, &dangers, number(room)?),
        _ => return Err("no such question".to_string()),
    };
    Ok(lines.unwrap_or_else(|refusal| format!("{refusal}\n")))
}

fn lowest_line(sheet: &Sheet, dangers: &Dangers, room: usize) -> Result<String, Refusal> {
    refuse_if(room < sheet.jobs.len(), Reason::BufferShort, 0)?;
    let (levels, asked) = lowest(sheet.jobs.len(), dangers);
    Ok(format!("{} asked {asked}\n", lowest_text(&levels)))
}

fn levels_line(sheet: &Sheet, room: usize) -> Result<String, Refusal> {
    refuse_if(room < sheet.jobs.len(), Reason::BufferShort, 0)?;
    let levels = sheet.levels();
    Ok(format!("levels{} jobs {}\n", names_text(&levels), levels.len()))
}

fn judge_line(sheet: &Sheet, dangers: &Dangers, levels: &[u8]) -> Result<String, Refusal> {
    let robust = dangers.robust(&read_levels(sheet, levels)?);
    Ok(if robust { "robust\n" } else { "not robust\n" }.to_string())
}

fn walk_lines(sheet: &Sheet, dangers: &Dangers, levels: &[u8]) -> Result<String, Refusal> {
    let all = dangers.all(&read_levels(sheet, levels)?);
    let lines: String = all.iter().map(danger_line).collect();
    Ok(lines + "end\n")
}

fn step_line(sheet: &Sheet, dangers: &Dangers, levels: &[u8], above: Four) -> Result<String, Refusal> {
    let found = dangers.next(&read_levels(sheet, levels)?, above);
    Ok(found.as_ref().map_or("end\n".to_string(), danger_line))
}

fn danger_line(split: &Split) -> String {
    format!("{} | pairs{}\n", danger_text(split), pairs_text(split))
}

fn number(word: &str) -> Result<usize, String> {
    word.parse().map_err(|_| format!("no number `{word}`"))
}

fn hex(text: &str) -> Result<Vec<u8>, String> {
    let digits = |two: &[u8]| std::str::from_utf8(two).ok().and_then(|two| u8::from_str_radix(two, 16).ok());
    let bytes: Option<Vec<u8>> = text.as_bytes().chunks(2).map(digits).collect();
    bytes.ok_or(format!("no bytes `{text}`"))
}
