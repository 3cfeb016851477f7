//! What `station` prints.

use std::fmt::Write;

use crate::commit::{ask, next_epoch, Counts};
use crate::member::MemberNumber;
use crate::path::Path;
use crate::refusal::Refusal;
use crate::script::{self, Line};
use crate::tree::{Node, Tree};

/// All bytes that are printed for these bytes of input.
pub fn play(input: &[u8]) -> Vec<u8> {
    let mut printed = String::new();
    match script::open(input) {
        Err(refusal) => print_refusal(&mut printed, refusal),
        Ok(script) => {
            let mut group = Group::founded(script.founder);
            for line in script.lines {
                match group.answer(line) {
                    Ok(counts) => group.print(&mut printed, counts),
                    Err(refusal) => print_refusal(&mut printed, refusal),
                }
            }
        }
    }
    printed.into_bytes()
}

/// The station needs the tree's shape and no key.
struct Group {
    epoch: u32,
    tree: Tree<()>,
}

impl Group {
    fn founded(founder: MemberNumber) -> Self {
        Group {
            epoch: 0,
            tree: Tree::founded(founder, ()),
        }
    }

    fn answer(&mut self, line: &[u8]) -> Result<Counts, Refusal> {
        let Some(Line::Commit(commit)) = script::line(line) else {
            return Err(Refusal::Malformed);
        };
        let epoch = next_epoch(self.epoch)?;
        let leaf = commit.judge(&self.tree)?;
        ask(&mut self.tree, commit.change, ());
        let path = Path::plan(&self.tree, leaf);
        let counts = Counts::of(&path, commit.change);
        path.lay(&mut self.tree, (), &vec![(); counts.node_keys]);
        self.epoch = epoch;
        Ok(counts)
    }

    fn print(&self, printed: &mut String, counts: Counts) {
        // Writing to a string cannot fail.
        let _ = write!(
            printed,
            "{} {} {}",
            self.epoch, counts.boxes, counts.node_keys
        );
        for node in self.tree.nodes() {
            printed.push(' ');
            print_node(printed, node);
        }
        printed.push('\n');
    }
}

fn print_node(printed: &mut String, node: &Node<()>) {
    match node {
        Node::Blank => printed.push('.'),
        Node::Leaf { member, .. } => {
            let _ = write!(printed, "{member}");
        }
        Node::Parent { unmerged, .. } => {
            printed.push('*');
            for (place, member) in unmerged.iter().enumerate() {
                let comma = if place == 0 { "" } else { "," };
                let _ = write!(printed, "{comma}{member}");
            }
        }
    }
}

fn print_refusal(printed: &mut String, refusal: Refusal) {
    let _ = writeln!(printed, "{refusal}");
}
