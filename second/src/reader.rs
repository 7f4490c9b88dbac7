//! Reads a sheet from its first byte on; the first fault met decides (document 01, "Reasons for turning a call down").

use crate::refusal::{refuse_if, Reason, Refusal};
use crate::sheet::{Job, Kind, Level, Operation, Sheet};

const MOST_JOBS: u8 = 32;
const MOST_OBJECTS: u16 = 4096;
const MOST_OPERATIONS: usize = 16;

pub fn read(bytes: &[u8]) -> Result<Sheet, Refusal> {
    let (head, mut at) = record(bytes, 0, 0x01, |length| length == 4)?;
    let (declared, objects) = read_head(&head)?;
    let mut jobs = Vec::new();
    for _ in 0..declared {
        let (job, next) = record(bytes, at, 0x02, |length| length >= 2)?;
        jobs.push(read_job(&job, objects)?);
        at = next;
    }
    let (_, after) = record(bytes, at, 0x7F, |length| length == 0)?;
    refuse_if(bytes.len() > after, Reason::BytesAfterEnd, after)?;
    Ok(Sheet { objects, jobs })
}

/// A whole record: where its first byte stands, and its value.
struct Record<'a> {
    start: usize,
    value: &'a [u8],
}

impl Record<'_> {
    /// The place of a byte of the value.
    fn place(&self, index: usize) -> usize {
        self.start + 3 + index
    }
}

/// The record that is due at `start`, and where the next one starts.
fn record(bytes: &[u8], start: usize, tag: u8, fits: fn(usize) -> bool) -> Result<(Record<'_>, usize), Refusal> {
    let left = &bytes[start..];
    refuse_if(left.len() < 3, Reason::CutShort, start)?;
    refuse_if(left[0] != tag, Reason::OtherTag, start)?;
    let length = usize::from(number(&left[1..3]));
    refuse_if(!fits(length), Reason::WrongLength, start)?;
    refuse_if(left.len() < 3 + length, Reason::CutShort, start)?;
    let value = &left[3..3 + length];
    Ok((Record { start, value }, start + 3 + length))
}

/// Two bytes, high byte first.
fn number(two: &[u8]) -> u16 {
    u16::from_be_bytes([two[0], two[1]])
}

fn read_head(head: &Record) -> Result<(u8, u16), Refusal> {
    let jobs = head.value[1];
    let objects = number(&head.value[2..4]);
    refuse_if(head.value[0] != 1, Reason::Form, head.place(0))?;
    refuse_if(jobs > MOST_JOBS, Reason::Jobs, head.place(1))?;
    refuse_if(objects > MOST_OBJECTS, Reason::Objects, head.place(2))?;
    Ok((jobs, objects))
}

fn read_job(job: &Record, objects: u16) -> Result<Job, Refusal> {
    let level = Level::from_byte(job.value[0]);
    let level = level.ok_or(Refusal { reason: Reason::Level, place: job.place(0) })?;
    let count = usize::from(job.value[1]);
    refuse_if(count == 0 || count > MOST_OPERATIONS, Reason::Count, job.place(1))?;
    refuse_if(job.value.len() != 2 + 3 * count, Reason::WrongLength, job.start)?;
    let mut operations = Vec::new();
    for index in 0..count {
        let at = 2 + 3 * index;
        let operation = read_operation(&job.value[at..at + 3], job.place(at), objects)?;
        refuse_if(operations.contains(&operation), Reason::Twice, job.place(at))?;
        operations.push(operation);
    }
    Ok(Job { level, operations })
}

fn read_operation(three: &[u8], place: usize, objects: u16) -> Result<Operation, Refusal> {
    let kind = match three[0] {
        1 => Kind::Read,
        2 => Kind::Write,
        _ => return Err(Refusal { reason: Reason::Kind, place }),
    };
    let object = number(&three[1..3]);
    refuse_if(object >= objects, Reason::Object, place + 1)?;
    Ok(Operation { kind, object })
}
