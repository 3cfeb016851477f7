//! A commit: who may make it, and what it does to the tree.

use crate::member::MemberNumber;
use crate::node_index::LeafIndex;
use crate::path::Path;
use crate::refusal::Refusal;
use crate::tree::{Tree, MAX_MEMBERS};

/// What a commit asks for, before its path.
#[derive(Clone, Copy, Debug, PartialEq, Eq)]
pub enum Change {
    Renew,
    Remove(MemberNumber),
    Add(MemberNumber),
}

#[derive(Clone, Copy, Debug, PartialEq, Eq)]
pub struct Commit {
    pub committer: MemberNumber,
    pub change: Change,
}

/// The epoch after this one; refused where this is the last.
pub fn next_epoch(epoch: u32) -> Result<u32, Refusal> {
    epoch.checked_add(1).ok_or(Refusal::LastEpoch)
}

impl Commit {
    /// May this committer make this change? Refusals 3 to 6, the lowest first.
    pub fn judge<K: Copy>(&self, tree: &Tree<K>) -> Result<LeafIndex, Refusal> {
        let leaf = tree.leaf_of(self.committer).ok_or(Refusal::NotSeated)?;
        match self.change {
            Change::Renew => {}
            Change::Remove(member) => {
                if member == self.committer || !tree.is_seated(member) {
                    return Err(Refusal::NotRemovable);
                }
            }
            Change::Add(newcomer) => {
                if newcomer.is_nobody() || tree.is_seated(newcomer) {
                    return Err(Refusal::NotAddable);
                }
                if tree.member_count() == MAX_MEMBERS {
                    return Err(Refusal::Full);
                }
            }
        }
        Ok(leaf)
    }
}

/// What was asked, done: with the leaf that it concerns.
#[derive(Clone, Copy, Debug, PartialEq, Eq)]
pub enum Done {
    Renewed,
    Removed(LeafIndex),
    Added(LeafIndex),
}

/// Does what is asked, in a tree for which the commit was judged. `newcomer_key` is looked at for
/// an add only.
pub fn ask<K: Copy>(tree: &mut Tree<K>, change: Change, newcomer_key: K) -> Done {
    match change {
        Change::Renew => Done::Renewed,
        Change::Remove(member) => match tree.remove(member) {
            Some(leaf) => Done::Removed(leaf),
            None => Done::Renewed,
        },
        Change::Add(newcomer) => Done::Added(tree.add(newcomer, newcomer_key)),
    }
}

/// How many node keys and boxes the message of a commit has.
#[derive(Clone, Copy, Debug, PartialEq, Eq)]
pub struct Counts {
    pub node_keys: usize,
    pub boxes: usize,
}

impl Counts {
    pub fn of<K: Copy>(path: &Path<K>, change: Change) -> Self {
        let welcome = usize::from(matches!(change, Change::Add(_)));
        Counts {
            node_keys: path.node_key_count(),
            boxes: path.target_count() + welcome,
        }
    }
}

#[cfg(test)]
mod tests {
    use super::*;

    const M0: MemberNumber = MemberNumber(0);
    const M1: MemberNumber = MemberNumber(1);

    fn judge(tree: &Tree<()>, committer: MemberNumber, change: Change) -> Option<u8> {
        let commit = Commit { committer, change };
        commit.judge(tree).err().map(Refusal::number)
    }

    #[test]
    fn who_may_not() {
        let mut tree = Tree::founded(M0, ());
        tree.add(M1, ());
        let other = MemberNumber(7);
        assert_eq!(judge(&tree, M0, Change::Renew), None);
        assert_eq!(judge(&tree, other, Change::Renew), Some(3));
        assert_eq!(judge(&tree, other, Change::Remove(other)), Some(3));
        assert_eq!(judge(&tree, M0, Change::Remove(M0)), Some(4));
        assert_eq!(judge(&tree, M0, Change::Remove(other)), Some(4));
        assert_eq!(
            judge(&tree, M0, Change::Remove(MemberNumber::NOBODY)),
            Some(4)
        );
        assert_eq!(judge(&tree, M0, Change::Add(M1)), Some(5));
        assert_eq!(judge(&tree, M0, Change::Add(MemberNumber::NOBODY)), Some(5));
        assert_eq!(next_epoch(u32::MAX), Err(Refusal::LastEpoch));
    }

    #[test]
    fn a_full_tree_takes_nobody() {
        let mut tree = Tree::founded(M0, ());
        for member in 1..1024 {
            tree.add(MemberNumber(member), ());
        }
        assert_eq!(judge(&tree, M0, Change::Add(MemberNumber(2000))), Some(6));
        assert_eq!(judge(&tree, M0, Change::Add(M1)), Some(5));
        tree.remove(M1);
        assert_eq!(judge(&tree, M0, Change::Add(MemberNumber(2000))), None);
    }
}
