//! The text that `survey` prints (document 01, "The program `survey`").

use crate::dangers::Dangers;
use crate::lowest::lowest;
use crate::reader::read;
use crate::sheet::{Level, Sheet};
use crate::split::Split;

/// So many bytes of input are the whole sheet.
pub const MOST_BYTES: usize = 4096;

pub fn survey(bytes: &[u8]) -> String {
    match read(bytes) {
        Ok(sheet) => survey_sheet(&sheet, &Dangers::new(&sheet)),
        Err(refusal) => format!("{refusal}\n"),
    }
}

fn survey_sheet(sheet: &Sheet, dangers: &Dangers) -> String {
    let mut text = format!("jobs {} objects {}\n", sheet.jobs.len(), sheet.objects);
    let all = dangers.all(&sheet.levels());
    for split in &all {
        text += &danger_text(split);
        text.push('\n');
    }
    let (levels, asked) = lowest(sheet.jobs.len(), dangers);
    text + &format!("dangers {}\n{}\nasked {asked}\n", all.len(), lowest_text(&levels))
}

/// `danger`, the four numbers, a colon and the jobs of the chain.
pub fn danger_text(split: &Split) -> String {
    let [t1, b1, t2, tm] = split.four();
    let chain: String = split.chain.iter().map(|job| format!(" {job}")).collect();
    format!("danger {t1} {b1} {t2} {tm} :{chain}")
}

/// `lowest` and the names of the levels.
pub fn lowest_text(levels: &[Level]) -> String {
    format!("lowest{}", names_text(levels))
}

/// A space and the name of each.
pub fn names_text(levels: &[Level]) -> String {
    levels.iter().map(|level| format!(" {}", level.name())).collect()
}
