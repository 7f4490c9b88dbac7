//! A job sheet as it stands in memory, and its bytes (document 01, "The sheet, form 1").

/// The isolation levels in their order, lowest first.
#[derive(Clone, Copy, Debug, PartialEq, Eq, PartialOrd, Ord)]
pub enum Level {
    Rc,
    Si,
    Ssi,
}

pub const LEVELS: [Level; 3] = [Level::Rc, Level::Si, Level::Ssi];

impl Level {
    pub fn from_byte(byte: u8) -> Option<Level> {
        LEVELS.get(usize::from(byte)).copied()
    }

    pub fn byte(self) -> u8 {
        self as u8
    }

    pub fn name(self) -> &'static str {
        match self {
            Level::Rc => "RC",
            Level::Si => "SI",
            Level::Ssi => "SSI",
        }
    }
}

#[derive(Clone, Copy, Debug, PartialEq, Eq)]
pub enum Kind {
    Read,
    Write,
}

#[derive(Clone, Copy, Debug, PartialEq, Eq)]
pub struct Operation {
    pub kind: Kind,
    pub object: u16,
}

impl Operation {
    /// As document 01's table of sheets writes it.
    pub fn text(self) -> String {
        let letter = if self.kind == Kind::Read { 'R' } else { 'W' };
        format!("{letter}{}", self.object)
    }
}

#[derive(Clone, Debug, PartialEq, Eq)]
pub struct Job {
    pub level: Level,
    pub operations: Vec<Operation>,
}

#[derive(Clone, Debug, PartialEq, Eq)]
pub struct Sheet {
    pub objects: u16,
    pub jobs: Vec<Job>,
}

impl Sheet {
    /// Jobs are numbered from 1.
    pub fn job(&self, number: usize) -> &Job {
        &self.jobs[number - 1]
    }

    pub fn numbers(&self) -> std::ops::RangeInclusive<usize> {
        1..=self.jobs.len()
    }

    pub fn levels(&self) -> Vec<Level> {
        self.jobs.iter().map(|job| job.level).collect()
    }

    /// The sheet's bytes. Nothing is checked: a table that breaks the form gives bytes that are refused.
    pub fn bytes(&self) -> Vec<u8> {
        let [high, low] = self.objects.to_be_bytes();
        let mut bytes = record(0x01, &[1, self.jobs.len() as u8, high, low]);
        for job in &self.jobs {
            bytes.extend(record(0x02, &job_value(job)));
        }
        bytes.extend(record(0x7F, &[]));
        bytes
    }
}

fn job_value(job: &Job) -> Vec<u8> {
    let mut value = vec![job.level.byte(), job.operations.len() as u8];
    for operation in &job.operations {
        value.push(if operation.kind == Kind::Read { 1 } else { 2 });
        value.extend(operation.object.to_be_bytes());
    }
    value
}

fn record(tag: u8, value: &[u8]) -> Vec<u8> {
    let mut bytes = vec![tag];
    bytes.extend((value.len() as u16).to_be_bytes());
    bytes.extend(value);
    bytes
}
