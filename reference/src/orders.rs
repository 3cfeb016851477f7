//! The orders to the vault: what each role orders for a commit.

use std::fmt;

use crate::commit::Done;
use crate::node_index::LeafIndex;
use crate::path::Path;
use crate::public_half::PublicHalf;
use crate::slot::Slot;
use crate::tree::HeldHeights;

/// The number of a box in a message, from 0.
#[derive(Clone, Copy, Debug, PartialEq, Eq)]
pub struct BoxNumber(pub usize);

impl fmt::Display for BoxNumber {
    fn fmt(&self, f: &mut fmt::Formatter<'_>) -> fmt::Result {
        self.0.fmt(f)
    }
}

/// The slot that is written comes last.
#[derive(Clone, Copy, Debug, PartialEq, Eq)]
pub enum Order {
    Draw(Slot),
    Up(Slot, Slot),
    Lock(Slot, Slot),
    Seed(Slot, Slot),
    Talk(Slot, Slot),
    Mix(Slot, Slot, Slot),
    Seal(Slot, PublicHalf),
    Open(BoxNumber, Slot, Slot),
    Forget(Slot),
    Public(Slot),
}

impl fmt::Display for Order {
    fn fmt(&self, f: &mut fmt::Formatter<'_>) -> fmt::Result {
        match self {
            Order::Draw(to) => write!(f, "draw {to}"),
            Order::Up(from, to) => write!(f, "up {from} {to}"),
            Order::Lock(from, to) => write!(f, "lock {from} {to}"),
            Order::Seed(from, to) => write!(f, "seed {from} {to}"),
            Order::Talk(from, to) => write!(f, "talk {from} {to}"),
            Order::Mix(init, path, to) => write!(f, "mix {init} {path} {to}"),
            Order::Seal(from, half) => write!(f, "seal {from} {half}"),
            Order::Open(number, key, to) => write!(f, "open {number} {key} {to}"),
            Order::Forget(slot) => write!(f, "forget {slot}"),
            Order::Public(slot) => write!(f, "public {slot}"),
        }
    }
}

/// What a handset looks at when it works out its orders: the change, done, and the path.
pub struct View {
    done: Done,
    path: Path<PublicHalf>,
    /// By node index: the box that is sealed to the node's key.
    box_of_node: Vec<Option<BoxNumber>>,
}

impl View {
    /// `node_count` is that of the tree after the change.
    pub fn new(done: Done, path: Path<PublicHalf>, node_count: usize) -> View {
        let mut box_of_node = vec![None; node_count];
        for (number, target) in path.targets().enumerate() {
            box_of_node[target.node.0] = Some(BoxNumber(number));
        }
        View {
            done,
            path,
            box_of_node,
        }
    }

    pub fn done(&self) -> Done {
        self.done
    }

    pub fn path(&self) -> &Path<PublicHalf> {
        &self.path
    }

    /// The welcome box comes behind those of the path.
    fn welcome(&self) -> BoxNumber {
        BoxNumber(self.path.target_count())
    }

    /// What a member that stays still holds once a removal has blanked parents, and what it
    /// no longer does.
    fn split_held(&self, leaf: LeafIndex, held: HeldHeights) -> (HeldHeights, HeldHeights) {
        match self.done {
            Done::Removed(removed) => {
                let meeting = leaf.meeting_height(removed);
                (held.below(meeting), held.from(meeting))
            }
            Done::Renewed | Done::Added(_) => (held, HeldHeights::default()),
        }
    }

    /// The box that reaches a leaf, and the slot of the key that opens it.
    fn box_for(&self, leaf: LeafIndex) -> Option<(BoxNumber, Slot)> {
        (0..leaf.meeting_height(self.path.leaf)).find_map(|height| {
            let number = self.box_of_node[leaf.part(height).node().0]?;
            Some((number, Slot::node_key(height)))
        })
    }

    /// The orders of the committer. `held` are the heights of its node keys before the commit,
    /// `init_key` is the newcomer's for an add.
    pub fn committer(&self, held: HeldHeights, init_key: Option<PublicHalf>) -> Vec<Order> {
        let mut orders = Vec::new();
        let (held, blanked) = self.split_held(self.path.leaf, held);
        forget_node_keys(&mut orders, blanked);
        orders.extend([
            Order::Forget(Slot::LEAF_KEY),
            Order::Draw(Slot::LEAF_KEY),
            Order::Public(Slot::LEAF_KEY),
            Order::Draw(Slot::path_secret(0)),
        ]);
        let mut level = 0;
        for step in &self.path.steps {
            let (from, node) = (Slot::path_secret(level), Slot::node_key(step.parent.height));
            if held.contains(step.parent.height) {
                orders.push(Order::Forget(node));
            }
            if step.lays_key() {
                orders.extend(
                    step.targets
                        .iter()
                        .map(|target| Order::Seal(from, target.key)),
                );
                orders.extend([Order::Lock(from, node), Order::Public(node)]);
                go_up(&mut orders, level);
                level += 1;
            }
        }
        mix_epoch(&mut orders, Slot::path_secret(level));
        orders.extend(init_key.map(|half| Order::Seal(Slot::EPOCH_SECRET, half)));
        settle_epoch(&mut orders);
        orders
    }

    /// The orders of a member that stays and is not the committer.
    pub fn member(&self, leaf: LeafIndex, held: HeldHeights) -> Vec<Order> {
        let mut orders = Vec::new();
        let (held, blanked) = self.split_held(leaf, held);
        forget_node_keys(&mut orders, blanked);
        let left = self.climb(&mut orders, leaf, held);
        mix_epoch(&mut orders, left);
        settle_epoch(&mut orders);
        orders
    }

    /// The orders of a newcomer behind its [`newcomer_draws`].
    pub fn newcomer(&self, leaf: LeafIndex) -> Vec<Order> {
        let mut orders = vec![
            Order::Open(self.welcome(), Slot::INIT_KEY, Slot::EPOCH_SECRET),
            Order::Forget(Slot::INIT_KEY),
        ];
        let left = self.climb(&mut orders, leaf, HeldHeights::default());
        orders.push(Order::Forget(left));
        settle_epoch(&mut orders);
        orders
    }

    /// Opens the box that reaches this leaf and goes up from there. Gives the slot of the path
    /// secret that is left at the top.
    fn climb(&self, orders: &mut Vec<Order>, leaf: LeafIndex, held: HeldHeights) -> Slot {
        let meeting = leaf.meeting_height(self.path.leaf);
        let (below, from) = self.path.steps.split_at(meeting.saturating_sub(1) as usize);
        let mut level = below.iter().filter(|step| step.lays_key()).count();
        if let Some((number, key)) = self.box_for(leaf) {
            orders.push(Order::Open(number, key, Slot::path_secret(level)));
        }
        for step in from {
            let node = Slot::node_key(step.parent.height);
            if held.contains(step.parent.height) {
                orders.push(Order::Forget(node));
            }
            if step.lays_key() {
                orders.push(Order::Lock(Slot::path_secret(level), node));
                go_up(orders, level);
                level += 1;
            }
        }
        Slot::path_secret(level)
    }
}

/// What a newcomer orders before the commit that adds it can be made.
pub fn newcomer_draws() -> [Order; 4] {
    [
        Order::Draw(Slot::LEAF_KEY),
        Order::Public(Slot::LEAF_KEY),
        Order::Draw(Slot::INIT_KEY),
        Order::Public(Slot::INIT_KEY),
    ]
}

/// A member that is removed forgets all it holds.
pub fn removed_member(held: HeldHeights) -> Vec<Order> {
    let mut orders = vec![
        Order::Forget(Slot::APPLICATION_SECRET),
        Order::Forget(Slot::INIT_SECRET),
        Order::Forget(Slot::LEAF_KEY),
    ];
    forget_node_keys(&mut orders, held);
    orders
}

/// A founder draws its leaf key and the first epoch secret.
pub fn founder() -> Vec<Order> {
    let mut orders = vec![
        Order::Draw(Slot::LEAF_KEY),
        Order::Public(Slot::LEAF_KEY),
        Order::Draw(Slot::EPOCH_SECRET),
    ];
    settle_epoch(&mut orders);
    orders
}

fn forget_node_keys(orders: &mut Vec<Order>, heights: HeldHeights) {
    orders.extend(
        heights
            .iter()
            .map(|height| Order::Forget(Slot::node_key(height))),
    );
}

fn go_up(orders: &mut Vec<Order>, level: usize) {
    let (from, to) = (Slot::path_secret(level), Slot::path_secret(level + 1));
    orders.extend([Order::Up(from, to), Order::Forget(from)]);
}

fn mix_epoch(orders: &mut Vec<Order>, path_secret: Slot) {
    orders.extend([
        Order::Mix(Slot::INIT_SECRET, path_secret, Slot::EPOCH_SECRET),
        Order::Forget(path_secret),
        Order::Forget(Slot::APPLICATION_SECRET),
        Order::Forget(Slot::INIT_SECRET),
    ]);
}

fn settle_epoch(orders: &mut Vec<Order>) {
    orders.extend([
        Order::Seed(Slot::EPOCH_SECRET, Slot::INIT_SECRET),
        Order::Talk(Slot::EPOCH_SECRET, Slot::APPLICATION_SECRET),
        Order::Forget(Slot::EPOCH_SECRET),
    ]);
}
