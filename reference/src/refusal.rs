//! Why something is refused.

use std::fmt;

/// The causes of a refusal. The numbers are the rules' own.
#[derive(Clone, Copy, Debug, PartialEq, Eq, PartialOrd, Ord)]
pub enum Refusal {
    Malformed = 1,
    OtherEpoch = 2,
    NotSeated = 3,
    NotRemovable = 4,
    NotAddable = 5,
    Full = 6,
    WrongCounts = 7,
    UnsoundTree = 8,
    LastEpoch = 9,
}

impl Refusal {
    pub fn number(self) -> u8 {
        self as u8
    }
}

impl fmt::Display for Refusal {
    fn fmt(&self, f: &mut fmt::Formatter<'_>) -> fmt::Result {
        self.number().fmt(f)
    }
}
