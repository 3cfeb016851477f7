//! Member numbers.

use std::fmt;

/// A member's number. 65,535 is a number that can be written down but is nobody's.
#[derive(Clone, Copy, Debug, PartialEq, Eq, PartialOrd, Ord, Hash)]
pub struct MemberNumber(pub u16);

impl MemberNumber {
    pub const NOBODY: MemberNumber = MemberNumber(u16::MAX);

    pub fn is_nobody(self) -> bool {
        self == MemberNumber::NOBODY
    }
}

impl fmt::Display for MemberNumber {
    fn fmt(&self, f: &mut fmt::Formatter<'_>) -> fmt::Result {
        self.0.fmt(f)
    }
}
