//! What is named or carried of secrets outside the vault: public halves and boxes.

use std::fmt;

/// The 32 bytes that name a key.
#[derive(Clone, Copy, Debug, PartialEq, Eq, Hash)]
pub struct PublicHalf(pub [u8; PublicHalf::BYTES]);

impl PublicHalf {
    pub const BYTES: usize = 32;
}

impl fmt::Display for PublicHalf {
    fn fmt(&self, f: &mut fmt::Formatter<'_>) -> fmt::Result {
        self.0.iter().try_for_each(|byte| write!(f, "{byte:02x}"))
    }
}

/// A box: one secret, sealed to one key.
#[derive(Clone, Copy, Debug, PartialEq, Eq)]
pub struct SealedBox(pub [u8; SealedBox::BYTES]);

impl SealedBox {
    pub const BYTES: usize = 48;
}
