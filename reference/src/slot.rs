//! The vault's slots, and what the rules keep where.

use std::fmt;

/// A slot of the vault, 0 to 63.
#[derive(Clone, Copy, Debug, PartialEq, Eq, PartialOrd, Ord, Hash)]
pub struct Slot(pub u8);

impl Slot {
    pub const COUNT: usize = 64;

    pub const APPLICATION_SECRET: Slot = Slot(0);
    pub const INIT_SECRET: Slot = Slot(1);
    pub const LEAF_KEY: Slot = Slot(2);
    pub const EPOCH_SECRET: Slot = Slot(21);
    pub const INIT_KEY: Slot = Slot(22);

    /// Where the key of the node of this height is kept; height 0 is the leaf.
    pub fn node_key(height: u32) -> Slot {
        Slot(Slot::LEAF_KEY.0 + height as u8)
    }

    /// Where the path secret of this level is kept while a commit is carried out.
    pub fn path_secret(level: usize) -> Slot {
        if level.is_multiple_of(2) {
            Slot(19)
        } else {
            Slot(20)
        }
    }
}

impl fmt::Display for Slot {
    fn fmt(&self, f: &mut fmt::Formatter<'_>) -> fmt::Result {
        self.0.fmt(f)
    }
}
