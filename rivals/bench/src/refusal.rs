//! Why something is refused, and at which place.

use std::fmt;

#[derive(Clone, Copy, Debug, PartialEq, Eq)]
#[repr(u8)]
pub enum Reason {
    NoHeader = 1,
    BadHeader = 3,
    BadLength = 4,
    BadField = 5,
    BadBracket = 6,
    TooDeep = 7,
    NoRoomForCode = 8,
    NotASource = 10,
    SecretRepeat = 11,
    SecretIndex = 12,
    PublicStore = 13,
    TooManySteps = 14,
    NoRoomForResult = 15,
    NoRoomForImage = 16,
    AlreadySeated = 20,
    MemoryTooSmall = 21,
    NoneSeated = 22,
    NoSuchTable = 23,
    IndexTooLarge = 24,
    NoFreeMarks = 25,
    NoSuchRegister = 26,
    SecretTable = 27,
    NoRoomForVisits = 28,
    NoOutcome = 29,
    OutsideTable = 30,
    NoRoomForMarks = 31,
}

#[derive(Clone, Copy, Debug, PartialEq, Eq)]
pub struct Refusal {
    pub reason: Reason,
    pub place: usize,
}

impl Reason {
    pub fn at(self, place: usize) -> Refusal {
        Refusal {
            reason: self,
            place,
        }
    }

    /// Refuses, at place 0, unless `good` holds.
    pub fn unless(self, good: bool) -> Result<(), Refusal> {
        if good {
            Ok(())
        } else {
            Err(self.at(0))
        }
    }
}

impl fmt::Display for Refusal {
    fn fmt(&self, out: &mut fmt::Formatter<'_>) -> fmt::Result {
        write!(out, "refused {} {}", self.reason as u8, self.place)
    }
}

impl std::error::Error for Refusal {}
