//! What `handset` prints: one member takes messages and gives orders.

use std::fmt::Write;

use crate::commit::{ask, next_epoch, Counts, Done};
use crate::member::MemberNumber;
use crate::message::{Message, MessageChange};
use crate::orders::{newcomer_draws, removed_member, Order, View};
use crate::path::Path;
use crate::public_half::PublicHalf;
use crate::refusal::Refusal;
use crate::script::number;
use crate::tree::Tree;
use crate::tree_file::{self, TreeFile};

/// All bytes that are printed for a member, a tree file and messages.
pub fn play<'a>(
    member: &[u8],
    tree_bytes: &[u8],
    messages: impl IntoIterator<Item = &'a [u8]>,
) -> Vec<u8> {
    let mut printed = String::new();
    match Handset::start(member, tree_bytes) {
        Err(refusal) => print_refusal(&mut printed, refusal),
        Ok(mut handset) => {
            for bytes in messages {
                match handset.take(bytes) {
                    Ok(orders) => print_orders(&mut printed, &orders),
                    Err(refusal) => print_refusal(&mut printed, refusal),
                }
                printed.push('\n');
            }
        }
    }
    printed.into_bytes()
}

fn print_refusal(printed: &mut String, refusal: Refusal) {
    // Writing to a string cannot fail.
    let _ = writeln!(printed, "{refusal}");
}

fn print_orders(printed: &mut String, orders: &[Order]) {
    for order in orders {
        let _ = writeln!(printed, "{order}");
    }
}

/// One member's handset, at the epoch where it stands.
pub struct Handset {
    member: MemberNumber,
    epoch: u32,
    tree: Tree<PublicHalf>,
}

impl Handset {
    pub fn start(member: &[u8], tree_bytes: &[u8]) -> Result<Handset, Refusal> {
        let member = number(member).ok_or(Refusal::Malformed)?;
        let TreeFile { epoch, tree } = TreeFile::read(tree_bytes)?;
        Ok(Handset {
            member,
            epoch,
            tree,
        })
    }

    pub fn epoch(&self) -> u32 {
        self.epoch
    }

    pub fn tree(&self) -> &Tree<PublicHalf> {
        &self.tree
    }

    /// The tree where the handset stands, as a tree file.
    pub fn tree_file(&self) -> Vec<u8> {
        tree_file::write(self.epoch, &self.tree)
    }

    /// Takes a message and gives the orders. A refusal leaves the handset where it stood.
    pub fn take(&mut self, bytes: &[u8]) -> Result<Vec<Order>, Refusal> {
        let message = Message::read(bytes)?;
        let epoch = next_epoch(self.epoch)?;
        if message.epoch != epoch {
            return Err(Refusal::OtherEpoch);
        }
        self.judge_self(&message)?;
        let taken = Taken::of(&message, &self.tree)?;
        let orders = self.orders(&message, &taken.view);
        self.tree = taken.tree;
        self.epoch = epoch;
        Ok(orders)
    }

    /// A handset that is not seated can follow only the add that names it.
    fn judge_self(&self, message: &Message) -> Result<(), Refusal> {
        let named = matches!(
            message.change,
            MessageChange::Add { newcomer, .. } if newcomer == self.member
        );
        if named || self.tree.is_seated(self.member) {
            Ok(())
        } else {
            Err(Refusal::NotSeated)
        }
    }

    fn orders(&self, message: &Message, view: &View) -> Vec<Order> {
        let Some(leaf) = self.tree.leaf_of(self.member) else {
            return newcomer_orders(view);
        };
        let held = self.tree.held_heights(leaf);
        if message.committer == self.member {
            return view.committer(held, init_key(&message.change));
        }
        match message.change {
            MessageChange::Remove(removed) if removed == self.member => removed_member(held),
            _ => view.member(leaf, held),
        }
    }
}

fn newcomer_orders(view: &View) -> Vec<Order> {
    let mut orders = newcomer_draws().to_vec();
    if let Done::Added(leaf) = view.done() {
        orders.extend(view.newcomer(leaf));
    }
    orders
}

pub fn init_key(change: &MessageChange) -> Option<PublicHalf> {
    match *change {
        MessageChange::Add { init_key, .. } => Some(init_key),
        _ => None,
    }
}

/// A message carried out on a copy of the tree.
struct Taken {
    tree: Tree<PublicHalf>,
    view: View,
}

impl Taken {
    /// Refusals 3 to 7.
    fn of(message: &Message, before: &Tree<PublicHalf>) -> Result<Taken, Refusal> {
        let commit = message.commit();
        let committer_leaf = commit.judge(before)?;
        let mut tree = before.clone();
        let newcomer_key = match message.change {
            MessageChange::Add { leaf_key, .. } => leaf_key,
            // Not looked at where nobody is added.
            _ => message.leaf_key,
        };
        let done = ask(&mut tree, commit.change, newcomer_key);
        let path = Path::plan(&tree, committer_leaf);
        judge_counts(message, &path)?;
        path.lay(&mut tree, message.leaf_key, &message.node_keys);
        let view = View::new(done, path, tree.nodes().len());
        Ok(Taken { tree, view })
    }
}

pub fn judge_counts(message: &Message, path: &Path<PublicHalf>) -> Result<(), Refusal> {
    let has = Counts {
        node_keys: message.node_keys.len(),
        boxes: message.boxes.len(),
    };
    if has == Counts::of(path, message.commit().change) {
        Ok(())
    } else {
        Err(Refusal::WrongCounts)
    }
}
