//! The reasons for turning a call down, with their numbers (document 01, the section of that name).

use std::fmt;

#[derive(Clone, Copy, Debug, PartialEq, Eq)]
pub enum Reason {
    CutShort = 1,
    OtherTag = 2,
    WrongLength = 3,
    Form = 4,
    Jobs = 5,
    Objects = 6,
    Level = 7,
    Count = 8,
    Kind = 9,
    Object = 10,
    Twice = 11,
    BytesAfterEnd = 12,
    LevelsLength = 13,
    LevelsLevel = 14,
    BufferShort = 15,
}

#[derive(Clone, Copy, Debug, PartialEq, Eq)]
pub struct Refusal {
    pub reason: Reason,
    pub place: usize,
}

impl Refusal {
    pub fn number(self) -> u8 {
        self.reason as u8
    }
}

impl fmt::Display for Refusal {
    fn fmt(&self, f: &mut fmt::Formatter<'_>) -> fmt::Result {
        write!(f, "refused {} at {}", self.number(), self.place)
    }
}

/// Refuses at the place if the fault is there.
pub fn refuse_if(fault: bool, reason: Reason, place: usize) -> Result<(), Refusal> {
    if fault {
        Err(Refusal { reason, place })
    } else {
        Ok(())
    }
}
