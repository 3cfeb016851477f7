//! The committer's path: from its leaf to the root, whom each path secret is sealed to.

use crate::node_index::{LeafIndex, Part};
use crate::tree::{Target, Tree};

/// One parent on the way up.
#[derive(Clone, Debug)]
pub struct Step<K> {
    pub parent: Part,
    /// The resolution of the other half. If it is empty the parent becomes blank.
    pub targets: Vec<Target<K>>,
}

impl<K> Step<K> {
    pub fn lays_key(&self) -> bool {
        !self.targets.is_empty()
    }
}

#[derive(Clone, Debug)]
pub struct Path<K> {
    pub leaf: LeafIndex,
    /// From the parent of height 1 to the root.
    pub steps: Vec<Step<K>>,
}

impl<K: Copy> Path<K> {
    /// The path of the member at this leaf, in a tree in which the change is done already.
    pub fn plan(tree: &Tree<K>, leaf: LeafIndex) -> Self {
        let steps = (1..=tree.depth())
            .map(|height| {
                let mut targets = Vec::new();
                tree.push_resolution(leaf.part(height - 1).sibling(), &mut targets);
                Step {
                    parent: leaf.part(height),
                    targets,
                }
            })
            .collect();
        Path { leaf, steps }
    }

    /// How many node keys the path lays.
    pub fn node_key_count(&self) -> usize {
        self.steps.iter().filter(|step| step.lays_key()).count()
    }

    /// Whom path secrets are sealed to, in the order of the boxes.
    pub fn targets(&self) -> impl Iterator<Item = &Target<K>> {
        self.steps.iter().flat_map(|step| &step.targets)
    }

    pub fn target_count(&self) -> usize {
        self.steps.iter().map(|step| step.targets.len()).sum()
    }

    /// Puts the new keys into the tree. `node_keys` are as many as the path lays.
    pub fn lay(&self, tree: &mut Tree<K>, leaf_key: K, node_keys: &[K]) {
        assert_eq!(node_keys.len(), self.node_key_count());
        tree.replace_leaf_key(self.leaf, leaf_key);
        let mut node_keys = node_keys.iter();
        for step in &self.steps {
            let node = step.parent.node();
            let key = if step.lays_key() {
                node_keys.next()
            } else {
                None
            };
            match key {
                Some(key) => tree.key_parent(node, *key),
                None => tree.blank(node),
            }
        }
    }
}
