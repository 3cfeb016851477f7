//! The arithmetic of the line of nodes: leaves at even indices, parents at odd ones.

/// A node's place in the line of nodes, from 0.
#[derive(Clone, Copy, Debug, PartialEq, Eq, Hash)]
pub struct NodeIndex(pub usize);

impl NodeIndex {
    pub fn is_leaf(self) -> bool {
        self.0.is_multiple_of(2)
    }

    /// The part of the tree that has this node at its top.
    pub fn part(self) -> Part {
        let height = self.0.trailing_ones();
        let first = (self.0 + 1 - (1 << height)) / 2;
        Part { first, height }
    }
}

/// A leaf's number, counted from the left.
#[derive(Clone, Copy, Debug, PartialEq, Eq, Hash)]
pub struct LeafIndex(pub usize);

impl LeafIndex {
    pub fn node(self) -> NodeIndex {
        NodeIndex(2 * self.0)
    }

    /// The part of this height in which the leaf lies.
    pub fn part(self, height: u32) -> Part {
        Part {
            first: self.0 >> height << height,
            height,
        }
    }

    /// The height of the lowest node above (or at) both leaves.
    pub fn meeting_height(self, other: LeafIndex) -> u32 {
        usize::BITS - (self.0 ^ other.0).leading_zeros()
    }
}

/// A node and all below it: the leaves `first` to `first + 2^height - 1`.
#[derive(Clone, Copy, Debug, PartialEq, Eq, Hash)]
pub struct Part {
    pub first: usize,
    pub height: u32,
}

impl Part {
    pub fn node(self) -> NodeIndex {
        NodeIndex(2 * self.first + (1 << self.height) - 1)
    }

    pub fn leaf_count(self) -> usize {
        1 << self.height
    }

    pub fn leaves(self) -> impl Iterator<Item = LeafIndex> {
        (self.first..self.first + self.leaf_count()).map(LeafIndex)
    }

    /// The other half below the same parent.
    pub fn sibling(self) -> Part {
        Part {
            first: self.first ^ self.leaf_count(),
            height: self.height,
        }
    }
}

/// How many nodes a tree of this depth has.
pub fn node_count(depth: u32) -> usize {
    (2 << depth) - 1
}

#[cfg(test)]
mod tests {
    use super::*;

    #[test]
    fn four_leaves_lie_as_the_rules_say() {
        let leaves: Vec<usize> = (0..4).map(|i| LeafIndex(i).node().0).collect();
        assert_eq!(leaves, [0, 2, 4, 6]);
        assert_eq!(LeafIndex(1).part(1).node(), NodeIndex(1));
        assert_eq!(LeafIndex(2).part(1).node(), NodeIndex(5));
        assert_eq!(LeafIndex(3).part(2).node(), NodeIndex(3));
        assert_eq!(node_count(2), 7);
    }

    #[test]
    fn a_node_and_its_part_name_each_other() {
        for index in 0..node_count(10) {
            assert_eq!(NodeIndex(index).part().node(), NodeIndex(index));
        }
    }

    #[test]
    fn siblings_and_meeting_heights() {
        assert_eq!(LeafIndex(5).part(0).sibling(), LeafIndex(4).part(0));
        assert_eq!(LeafIndex(5).part(1).sibling(), LeafIndex(6).part(1));
        assert_eq!(LeafIndex(5).meeting_height(LeafIndex(5)), 0);
        assert_eq!(LeafIndex(5).meeting_height(LeafIndex(4)), 1);
        assert_eq!(LeafIndex(0).meeting_height(LeafIndex(1023)), 10);
    }
}
