//! Sheets as people write them: `RC SI : R0 W1 | R1 W0`. Levels, a colon, the jobs parted by bars. The objects are as
//! many as the highest one needs, or as a third part says: `RC SI : R0 W1 | R1 W0 : objects 7`.

use crate::sheet::{Job, Kind, Level, Operation, Sheet, LEVELS};

pub fn show(sheet: &Sheet) -> String {
    let mut words: Vec<String> = sheet.jobs.iter().map(|job| job.level.name().to_string()).collect();
    words.push(":".to_string());
    for (index, job) in sheet.jobs.iter().enumerate() {
        words.extend((index > 0).then(|| "|".to_string()));
        words.extend(job.operations.iter().map(|operation| operation.text()));
    }
    if sheet.objects != needed(&sheet.jobs) {
        words.push(format!(": objects {}", sheet.objects));
    }
    words.join(" ")
}

/// The fewest objects that these jobs can be declared with.
fn needed(jobs: &[Job]) -> u16 {
    let objects = jobs.iter().flat_map(|job| &job.operations).map(|operation| operation.object);
    objects.max().map_or(0, |highest| highest.saturating_add(1))
}

/// The sheet that the text means. Its jobs are not checked as a reader checks them.
pub fn parse(text: &str) -> Result<Sheet, String> {
    let parts: Vec<&str> = text.split(':').collect();
    let (levels, jobs, objects) = match parts.as_slice() {
        [levels, jobs] => (levels, jobs, None),
        [levels, jobs, objects] => (levels, jobs, Some(parse_objects(objects)?)),
        _ => return Err("levels, a colon and the jobs are due".to_string()),
    };
    let levels: Vec<Level> = levels.split_whitespace().map(parse_level).collect::<Result<_, _>>()?;
    let operations = parse_jobs(jobs)?;
    if levels.len() != operations.len() {
        return Err(format!("{} levels for {} jobs", levels.len(), operations.len()));
    }
    let join = |(level, operations)| Job { level, operations };
    let jobs: Vec<Job> = levels.into_iter().zip(operations).map(join).collect();
    Ok(Sheet { objects: objects.unwrap_or(needed(&jobs)), jobs })
}

fn parse_level(word: &str) -> Result<Level, String> {
    LEVELS.into_iter().find(|level| level.name() == word).ok_or(format!("no level `{word}`"))
}

fn parse_jobs(text: &str) -> Result<Vec<Vec<Operation>>, String> {
    if text.trim().is_empty() {
        return Ok(Vec::new());
    }
    text.split('|').map(|job| job.split_whitespace().map(parse_operation).collect()).collect()
}

fn parse_operation(word: &str) -> Result<Operation, String> {
    let kind = match word.chars().next() {
        Some('R') => Kind::Read,
        Some('W') => Kind::Write,
        _ => return Err(format!("no operation `{word}`")),
    };
    Ok(Operation { kind, object: parse_number(&word[1..])? })
}

fn parse_objects(text: &str) -> Result<u16, String> {
    let number = text.trim().strip_prefix("objects ").ok_or("the third part is `objects N`")?;
    parse_number(number)
}

fn parse_number(text: &str) -> Result<u16, String> {
    let digits = !text.is_empty() && text.bytes().all(|byte| byte.is_ascii_digit());
    let number = text.parse().ok().filter(|_| digits);
    number.ok_or(format!("no number `{text}`"))
}
