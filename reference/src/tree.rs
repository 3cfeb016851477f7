//! The ratchet tree: one vector of nodes, addressed by node index.

use std::collections::HashMap;

use crate::member::MemberNumber;
use crate::node_index::{node_count, LeafIndex, NodeIndex, Part};

pub const MAX_DEPTH: u32 = 10;
pub const MAX_MEMBERS: usize = 1 << MAX_DEPTH;

/// Leaves stand at even node indices and parents at odd ones, so `Blank` serves both.
#[derive(Clone, Debug, PartialEq, Eq)]
pub enum Node<K> {
    Blank,
    Leaf {
        member: MemberNumber,
        key: K,
    },
    /// `unmerged` has the latest comer first.
    Parent {
        key: K,
        unmerged: Vec<MemberNumber>,
    },
}

/// A key of a resolution, and the node whose key it is.
#[derive(Clone, Copy, Debug, PartialEq, Eq)]
pub struct Target<K> {
    pub node: NodeIndex,
    pub key: K,
}

/// The heights of the parents whose node keys a member holds.
#[derive(Clone, Copy, Debug, Default, PartialEq, Eq)]
pub struct HeldHeights(u16);

impl HeldHeights {
    fn insert(&mut self, height: u32) {
        self.0 |= 1 << height;
    }

    fn remove(&mut self, height: u32) {
        self.0 &= !(1 << height);
    }

    pub fn contains(self, height: u32) -> bool {
        self.0 & (1 << height) != 0
    }

    /// From low to high.
    pub fn iter(self) -> impl Iterator<Item = u32> {
        (1..=MAX_DEPTH).filter(move |&height| self.contains(height))
    }

    pub fn below(self, height: u32) -> HeldHeights {
        HeldHeights(self.0 & ((1 << height) - 1))
    }

    pub fn from(self, height: u32) -> HeldHeights {
        HeldHeights(self.0 & !((1 << height) - 1))
    }
}

/// `K` is what the tree keeps of a key: no rule looks into one.
#[derive(Clone, Debug, PartialEq, Eq)]
pub struct Tree<K> {
    depth: u32,
    nodes: Vec<Node<K>>,
    seats: HashMap<MemberNumber, LeafIndex>,
}

impl<K: Copy> Tree<K> {
    pub fn founded(founder: MemberNumber, key: K) -> Self {
        Tree {
            depth: 0,
            nodes: vec![Node::Leaf {
                member: founder,
                key,
            }],
            seats: HashMap::from([(founder, LeafIndex(0))]),
        }
    }

    /// A tree of nodes that were judged already: `nodes` are as many as the depth asks for, and
    /// nobody sits at two leaves.
    pub fn from_sound_nodes(depth: u32, nodes: Vec<Node<K>>) -> Self {
        debug_assert_eq!(nodes.len(), node_count(depth));
        let seats = nodes
            .iter()
            .step_by(2)
            .enumerate()
            .filter_map(|(leaf, node)| match node {
                Node::Leaf { member, .. } => Some((*member, LeafIndex(leaf))),
                _ => None,
            })
            .collect();
        Tree {
            depth,
            nodes,
            seats,
        }
    }

    pub fn depth(&self) -> u32 {
        self.depth
    }

    pub fn nodes(&self) -> &[Node<K>] {
        &self.nodes
    }

    pub fn node(&self, index: NodeIndex) -> &Node<K> {
        &self.nodes[index.0]
    }

    pub fn leaf_count(&self) -> usize {
        1 << self.depth
    }

    pub fn member_count(&self) -> usize {
        self.seats.len()
    }

    pub fn leaf_of(&self, member: MemberNumber) -> Option<LeafIndex> {
        self.seats.get(&member).copied()
    }

    pub fn is_seated(&self, member: MemberNumber) -> bool {
        self.seats.contains_key(&member)
    }

    pub fn leaf_key(&self, leaf: LeafIndex) -> Option<K> {
        match self.node(leaf.node()) {
            Node::Leaf { key, .. } => Some(*key),
            _ => None,
        }
    }

    /// The members, by their leaves from the left.
    pub fn members(&self) -> impl Iterator<Item = (LeafIndex, MemberNumber)> + '_ {
        self.nodes
            .iter()
            .step_by(2)
            .enumerate()
            .filter_map(|(leaf, node)| match node {
                Node::Leaf { member, .. } => Some((LeafIndex(leaf), *member)),
                _ => None,
            })
    }

    /// The keys that reach everybody in a part, in the rules' order, are put behind `targets`.
    ///
    /// Goes over the leaves from the left. A parent is looked at when its first leaf is reached,
    /// the highest one first; a keyed one stands for all leaves below it.
    pub fn push_resolution(&self, part: Part, targets: &mut Vec<Target<K>>) {
        let end = part.first + part.leaf_count();
        let mut first = part.first;
        while first < end {
            let highest = (first - part.first).trailing_zeros().min(part.height);
            let top = (0..=highest)
                .rev()
                .map(|height| Part { first, height })
                .find(|top| !matches!(self.node(top.node()), Node::Blank));
            match top {
                Some(top) => {
                    self.push_keys_of(top.node(), targets);
                    first += top.leaf_count();
                }
                None => first += 1,
            }
        }
    }

    fn push_keys_of(&self, index: NodeIndex, targets: &mut Vec<Target<K>>) {
        match self.node(index) {
            Node::Blank => {}
            Node::Leaf { key, .. } => targets.push(Target {
                node: index,
                key: *key,
            }),
            Node::Parent { key, unmerged } => {
                targets.push(Target {
                    node: index,
                    key: *key,
                });
                targets.extend(unmerged.iter().filter_map(|member| {
                    let leaf = self.leaf_of(*member)?;
                    let key = self.leaf_key(leaf)?;
                    Some(Target {
                        node: leaf.node(),
                        key,
                    })
                }));
            }
        }
    }

    /// The heights of the node keys that the member at this leaf holds.
    pub fn held_heights(&self, leaf: LeafIndex) -> HeldHeights {
        let mut held = HeldHeights::default();
        let Node::Leaf { member, .. } = self.node(leaf.node()) else {
            return held;
        };
        for height in 1..=self.depth {
            if let Node::Parent { unmerged, .. } = self.node(leaf.part(height).node()) {
                if !unmerged.contains(member) {
                    held.insert(height);
                }
            }
        }
        held
    }

    /// The same for every leaf. Looks at each unmerged member once and not from every leaf.
    pub fn all_held_heights(&self) -> Vec<HeldHeights> {
        let mut all = vec![HeldHeights::default(); self.leaf_count()];
        for (index, node) in self.nodes.iter().enumerate().skip(1).step_by(2) {
            if let Node::Parent { unmerged, .. } = node {
                let part = NodeIndex(index).part();
                for leaf in part.leaves() {
                    all[leaf.0].insert(part.height);
                }
                for leaf in unmerged.iter().filter_map(|member| self.leaf_of(*member)) {
                    all[leaf.0].remove(part.height);
                }
            }
        }
        for (leaf, held) in all.iter_mut().enumerate() {
            if matches!(self.node(LeafIndex(leaf).node()), Node::Blank) {
                *held = HeldHeights::default();
            }
        }
        all
    }

    /// Seats a newcomer at the leftmost blank leaf, in a tree twice as large if there is none.
    pub fn add(&mut self, newcomer: MemberNumber, key: K) -> LeafIndex {
        let leaf = match self.leftmost_blank_leaf() {
            Some(leaf) => leaf,
            None => {
                let leaf = LeafIndex(self.leaf_count());
                self.double();
                leaf
            }
        };
        self.nodes[leaf.node().0] = Node::Leaf {
            member: newcomer,
            key,
        };
        self.seats.insert(newcomer, leaf);
        for height in 1..=self.depth {
            if let Node::Parent { unmerged, .. } = &mut self.nodes[leaf.part(height).node().0] {
                unmerged.insert(0, newcomer);
            }
        }
        leaf
    }

    fn leftmost_blank_leaf(&self) -> Option<LeafIndex> {
        self.nodes
            .iter()
            .step_by(2)
            .position(|node| matches!(node, Node::Blank))
            .map(LeafIndex)
    }

    fn double(&mut self) {
        self.depth += 1;
        self.nodes
            .resize_with(node_count(self.depth), || Node::Blank);
    }

    /// Blanks a member's leaf and every parent above it. Gives the leaf that is now free.
    pub fn remove(&mut self, member: MemberNumber) -> Option<LeafIndex> {
        let leaf = self.seats.remove(&member)?;
        for height in 0..=self.depth {
            self.blank(leaf.part(height).node());
        }
        Some(leaf)
    }

    pub fn blank(&mut self, index: NodeIndex) {
        self.nodes[index.0] = Node::Blank;
    }

    /// Lays a key at a parent, with nobody unmerged.
    pub fn key_parent(&mut self, index: NodeIndex, key: K) {
        debug_assert!(!index.is_leaf());
        self.nodes[index.0] = Node::Parent {
            key,
            unmerged: Vec::new(),
        };
    }

    pub fn replace_leaf_key(&mut self, leaf: LeafIndex, new_key: K) {
        if let Node::Leaf { key, .. } = &mut self.nodes[leaf.node().0] {
            *key = new_key;
        }
    }
}

#[cfg(test)]
mod tests {
    use super::*;

    fn resolution_of(tree: &Tree<u8>, part: Part) -> Vec<usize> {
        let mut targets = Vec::new();
        tree.push_resolution(part, &mut targets);
        targets.iter().map(|target| target.node.0).collect()
    }

    fn five_members() -> Tree<u8> {
        let mut tree = Tree::founded(MemberNumber(10), 0);
        for member in 11..15 {
            tree.add(MemberNumber(member), 0);
        }
        tree
    }

    #[test]
    fn the_fifth_member_doubles_the_tree_to_eight_leaves() {
        let tree = five_members();
        assert_eq!(tree.depth(), 3);
        assert_eq!(tree.nodes().len(), 15);
        assert_eq!(tree.leaf_of(MemberNumber(14)), Some(LeafIndex(4)));
    }

    #[test]
    fn a_resolution_goes_from_the_left_and_stops_at_keyed_parents() {
        let mut tree = five_members();
        let root = LeafIndex(0).part(3);
        assert_eq!(resolution_of(&tree, root), [0, 2, 4, 6, 8]);
        tree.key_parent(NodeIndex(5), 1);
        assert_eq!(resolution_of(&tree, root), [0, 2, 5, 8]);
        tree.key_parent(NodeIndex(3), 1);
        assert_eq!(resolution_of(&tree, root), [3, 8]);
        assert_eq!(resolution_of(&tree, LeafIndex(2).part(1)), [5]);
    }

    #[test]
    fn unmerged_members_come_behind_the_node_key_latest_first() {
        let mut tree = five_members();
        tree.remove(MemberNumber(10));
        tree.remove(MemberNumber(12));
        tree.key_parent(NodeIndex(3), 1);
        tree.add(MemberNumber(20), 0);
        tree.add(MemberNumber(21), 0);
        assert_eq!(resolution_of(&tree, LeafIndex(0).part(2)), [3, 4, 0]);
        assert!(!tree.held_heights(LeafIndex(0)).contains(2));
        assert!(tree.held_heights(LeafIndex(1)).contains(2));
        let all = tree.all_held_heights();
        for (leaf, held) in all.into_iter().enumerate() {
            assert_eq!(held, tree.held_heights(LeafIndex(leaf)));
        }
    }

    #[test]
    fn a_removal_blanks_the_leaf_and_all_above() {
        let mut tree = five_members();
        for parent in [1, 3, 5, 7] {
            tree.key_parent(NodeIndex(parent), 1);
        }
        tree.remove(MemberNumber(11));
        let blank: Vec<usize> = (0..8)
            .filter(|&i| *tree.node(NodeIndex(i)) == Node::Blank)
            .collect();
        assert_eq!(blank, [1, 2, 3, 7]);
    }
}
