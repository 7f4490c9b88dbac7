//! The questions with their answer lines (docs/REPLIES.md; document 01, "Reasons for turning a call down").

use crate::dangers::Dangers;
use crate::lowest::lowest;
use crate::reader::read;
use crate::refusal::{refuse_if, Reason, Refusal};
use crate::sheet::{Level, Sheet};
use crate::split::Split;
use crate::survey::danger_text;

#[derive(Clone, Debug, PartialEq, Eq)]
pub enum Question {
    Read { sheet: Vec<u8> },
    Judge { sheet: Vec<u8>, levels: Vec<u8> },
    Next { sheet: Vec<u8>, levels: Vec<u8>, above: [u8; 4] },
    Lowest { sheet: Vec<u8>, buffer: Vec<u8> },
    Levels { sheet: Vec<u8>, buffer: Vec<u8> },
}

impl Question {
    /// The kind's number in a stream.
    pub fn kind(&self) -> u8 {
        match self {
            Question::Read { .. } => 1,
            Question::Judge { .. } => 2,
            Question::Next { .. } => 3,
            Question::Lowest { .. } => 4,
            Question::Levels { .. } => 5,
        }
    }

    pub fn sheet(&self) -> &[u8] {
        match self {
            Question::Read { sheet }
            | Question::Judge { sheet, .. }
            | Question::Next { sheet, .. }
            | Question::Lowest { sheet, .. }
            | Question::Levels { sheet, .. } => sheet,
        }
    }

    /// The answer line, without its line feed.
    pub fn answer(&self) -> String {
        match self {
            Question::Read { sheet } => line(answer_read(sheet)),
            Question::Judge { sheet, levels } => line(answer_judge(sheet, levels)),
            Question::Next { sheet, levels, above } => line(answer_next(sheet, levels, *above)),
            Question::Lowest { sheet, buffer } => filled("lowest", fill_lowest, sheet, buffer),
            Question::Levels { sheet, buffer } => filled("levels", fill_levels, sheet, buffer),
        }
    }
}

fn line(answer: Result<String, Refusal>) -> String {
    answer.unwrap_or_else(|refusal| refusal.to_string())
}

fn answer_read(bytes: &[u8]) -> Result<String, Refusal> {
    let sheet = read(bytes)?;
    let mut text = format!("read {} {}", sheet.jobs.len(), sheet.objects);
    for job in &sheet.jobs {
        text += &format!(" : {}", job.level.byte());
        for operation in &job.operations {
            text += &format!(" {}", operation.text());
        }
    }
    Ok(text)
}

fn answer_judge(bytes: &[u8], levels: &[u8]) -> Result<String, Refusal> {
    let sheet = read(bytes)?;
    let levels = read_levels(&sheet, levels)?;
    let robust = Dangers::new(&sheet).robust(&levels);
    Ok(if robust { "robust" } else { "not robust" }.to_string())
}

fn answer_next(bytes: &[u8], levels: &[u8], above: [u8; 4]) -> Result<String, Refusal> {
    let sheet = read(bytes)?;
    let levels = read_levels(&sheet, levels)?;
    let found = Dangers::new(&sheet).next(&levels, above.map(usize::from));
    Ok(found.map_or("end".to_string(), |split| format!("{} :{}", danger_text(&split), pairs_text(&split))))
}

pub fn pairs_text(split: &Split) -> String {
    split.pairs.iter().map(|(b, a)| format!(" {b}-{a}")).collect()
}

/// Fills the buffer as lent for a sheet, and gives a number back.
type Fill = fn(&[u8], &mut [u8]) -> Result<usize, Refusal>;

fn filled(word: &str, fill: Fill, sheet: &[u8], buffer: &[u8]) -> String {
    let mut buffer = buffer.to_vec();
    let start = match fill(sheet, &mut buffer) {
        Ok(number) => format!("{word} {number} :"),
        Err(refusal) => format!("{refusal} :"),
    };
    let bytes: String = buffer.iter().map(|byte| format!(" {byte:02x}")).collect();
    start + &bytes
}

/// The lowest levels go to the buffer; the number asked comes back.
fn fill_lowest(bytes: &[u8], buffer: &mut [u8]) -> Result<usize, Refusal> {
    let sheet = read_for(bytes, buffer)?;
    let (levels, asked) = lowest(sheet.jobs.len(), &Dangers::new(&sheet));
    write_levels(&levels, buffer);
    Ok(asked)
}

/// The levels that the sheet itself names go to the buffer; the number of jobs comes back.
fn fill_levels(bytes: &[u8], buffer: &mut [u8]) -> Result<usize, Refusal> {
    let sheet = read_for(bytes, buffer)?;
    write_levels(&sheet.levels(), buffer);
    Ok(sheet.jobs.len())
}

/// The sheet, if its levels have room in the buffer.
fn read_for(bytes: &[u8], buffer: &[u8]) -> Result<Sheet, Refusal> {
    let sheet = read(bytes)?;
    refuse_if(buffer.len() < sheet.jobs.len(), Reason::BufferShort, 0)?;
    Ok(sheet)
}

/// One byte a job from the buffer's first byte on; the rest stays.
fn write_levels(levels: &[Level], buffer: &mut [u8]) {
    for (byte, level) in buffer.iter_mut().zip(levels) {
        *byte = level.byte();
    }
}

/// A list of levels for this sheet.
pub fn read_levels(sheet: &Sheet, bytes: &[u8]) -> Result<Vec<Level>, Refusal> {
    refuse_if(bytes.len() != sheet.jobs.len(), Reason::LevelsLength, 0)?;
    let mut levels = Vec::new();
    for (place, byte) in bytes.iter().enumerate() {
        let level = Level::from_byte(*byte);
        levels.push(level.ok_or(Refusal { reason: Reason::LevelsLevel, place })?);
    }
    Ok(levels)
}
