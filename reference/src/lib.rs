//! A second program for the rules of `docs/RULES.md`, written without a look at the
//! verified crates, so that what the verified programs print can be compared with what somebody else
//! made of the same rules.

pub mod commit;
pub mod drill;
pub mod handset;
pub mod knowledge;
pub mod member;
pub mod message;
pub mod node_index;
pub mod orders;
pub mod path;
pub mod public_half;
pub mod reader;
pub mod refusal;
pub mod script;
pub mod slot;
pub mod station;
pub mod term;
pub mod tree;
pub mod tree_file;
pub mod vault;

// Only the comparison uses these.
pub mod call;
pub mod calls;
pub mod cases;
pub mod compare;
pub mod generate;
pub mod random;
pub mod spoil;
