//! Tree files: read, judged, written.

use std::collections::{HashMap, HashSet};

use crate::member::MemberNumber;
use crate::node_index::{node_count, LeafIndex, NodeIndex};
use crate::public_half::PublicHalf;
use crate::reader::Reader;
use crate::refusal::Refusal;
use crate::tree::{Node, Tree, MAX_DEPTH};

const FORMAT: u8 = 6;
const BLANK: u8 = 0;
const FILLED: u8 = 1;

/// A tree and the epoch that it is of.
#[derive(Clone, Debug, PartialEq, Eq)]
pub struct TreeFile {
    pub epoch: u32,
    pub tree: Tree<PublicHalf>,
}

impl TreeFile {
    /// The file's tree, if it is well formed and sound.
    pub fn read(bytes: &[u8]) -> Result<TreeFile, Refusal> {
        let raw = read_raw(bytes).ok_or(Refusal::Malformed)?;
        if !is_sound(&raw.nodes) {
            return Err(Refusal::UnsoundTree);
        }
        Ok(TreeFile {
            epoch: raw.epoch,
            tree: Tree::from_sound_nodes(raw.depth, raw.nodes),
        })
    }
}

pub fn write(epoch: u32, tree: &Tree<PublicHalf>) -> Vec<u8> {
    write_nodes(epoch, tree.depth(), tree.nodes())
}

fn write_nodes(epoch: u32, depth: u32, nodes: &[Node<PublicHalf>]) -> Vec<u8> {
    let mut bytes = vec![FORMAT];
    bytes.extend(epoch.to_be_bytes());
    bytes.push(depth as u8);
    for node in nodes {
        write_node(&mut bytes, node);
    }
    bytes
}

fn write_node(bytes: &mut Vec<u8>, node: &Node<PublicHalf>) {
    match node {
        Node::Blank => bytes.push(BLANK),
        Node::Leaf { member, key } => {
            bytes.push(FILLED);
            bytes.extend(member.0.to_be_bytes());
            bytes.extend(key.0);
        }
        Node::Parent { key, unmerged } => {
            bytes.push(FILLED);
            bytes.extend(key.0);
            // At most 1,024 members are seated, so the count fits.
            bytes.extend((unmerged.len() as u16).to_be_bytes());
            bytes.extend(unmerged.iter().flat_map(|member| member.0.to_be_bytes()));
        }
    }
}

/// A file that is well formed; nothing is said of its members.
pub struct Raw {
    pub epoch: u32,
    pub depth: u32,
    pub nodes: Vec<Node<PublicHalf>>,
}

impl Raw {
    pub fn write(&self) -> Vec<u8> {
        write_nodes(self.epoch, self.depth, &self.nodes)
    }
}

pub fn read_raw(bytes: &[u8]) -> Option<Raw> {
    let mut reader = Reader::new(bytes);
    if reader.byte()? != FORMAT {
        return None;
    }
    let epoch = reader.u32()?;
    let depth = u32::from(reader.byte()?);
    if depth > MAX_DEPTH {
        return None;
    }
    let nodes = (0..node_count(depth))
        .map(|index| read_node(&mut reader, NodeIndex(index)))
        .collect::<Option<Vec<_>>>()?;
    reader.is_at_end().then_some(Raw {
        epoch,
        depth,
        nodes,
    })
}

fn read_node(reader: &mut Reader<'_>, index: NodeIndex) -> Option<Node<PublicHalf>> {
    match reader.byte()? {
        BLANK => Some(Node::Blank),
        FILLED if index.is_leaf() => Some(Node::Leaf {
            member: reader.member()?,
            key: reader.public_half()?,
        }),
        FILLED => {
            let key = reader.public_half()?;
            let count = reader.u16()?;
            let unmerged = reader.list(count.into(), Reader::member)?;
            Some(Node::Parent { key, unmerged })
        }
        _ => None,
    }
}

fn is_sound(nodes: &[Node<PublicHalf>]) -> bool {
    let Some(seats) = seats(nodes) else {
        return false;
    };
    nodes.iter().enumerate().all(|(index, node)| match node {
        Node::Parent { unmerged, .. } => is_sound_parent(NodeIndex(index), unmerged, nodes, &seats),
        _ => true,
    })
}

/// Who sits where; nothing if somebody sits twice or has nobody's number.
fn seats(nodes: &[Node<PublicHalf>]) -> Option<HashMap<MemberNumber, LeafIndex>> {
    let mut seats = HashMap::new();
    for (leaf, node) in nodes.iter().step_by(2).enumerate() {
        if let Node::Leaf { member, .. } = node {
            let twice = seats.insert(*member, LeafIndex(leaf)).is_some();
            if twice || member.is_nobody() {
                return None;
            }
        }
    }
    Some(seats)
}

/// The unmerged sit below the parent, each is named once, and somebody else sits there too.
fn is_sound_parent(
    index: NodeIndex,
    unmerged: &[MemberNumber],
    nodes: &[Node<PublicHalf>],
    seats: &HashMap<MemberNumber, LeafIndex>,
) -> bool {
    let part = index.part();
    let mut named = HashSet::new();
    let all_below_once = unmerged.iter().all(|member| {
        let below = seats
            .get(member)
            .is_some_and(|leaf| leaf.part(part.height) == part);
        below && named.insert(*member)
    });
    let seated_below = part
        .leaves()
        .filter(|leaf| matches!(nodes[leaf.node().0], Node::Leaf { .. }))
        .count();
    all_below_once && seated_below > unmerged.len()
}

#[cfg(test)]
mod tests {
    use super::*;

    fn half(byte: u8) -> PublicHalf {
        PublicHalf([byte; 32])
    }

    fn leaf(member: u16) -> Node<PublicHalf> {
        Node::Leaf {
            member: MemberNumber(member),
            key: half(member as u8),
        }
    }

    fn keyed(unmerged: &[u16]) -> Node<PublicHalf> {
        Node::Parent {
            key: half(99),
            unmerged: unmerged.iter().copied().map(MemberNumber).collect(),
        }
    }

    fn file(depth: u8, nodes: &[Node<PublicHalf>]) -> Vec<u8> {
        let mut bytes = vec![6, 0xff, 0xff, 0xff, 0xff, depth];
        for node in nodes {
            write_node(&mut bytes, node);
        }
        bytes
    }

    fn refusal(bytes: &[u8]) -> Option<u8> {
        TreeFile::read(bytes).err().map(Refusal::number)
    }

    fn four(nodes: [Node<PublicHalf>; 7]) -> Option<u8> {
        refusal(&file(2, &nodes))
    }

    const BLANK_NODE: Node<PublicHalf> = Node::Blank;

    #[test]
    fn what_is_written_is_read_again() {
        let nodes = [
            leaf(1),
            keyed(&[]),
            leaf(2),
            keyed(&[4]),
            BLANK_NODE,
            BLANK_NODE,
            leaf(4),
        ];
        let bytes = file(2, &nodes);
        let read = TreeFile::read(&bytes).expect("a sound file");
        assert_eq!(read.epoch, u32::MAX);
        assert_eq!(read.tree.nodes(), &nodes[..]);
        assert_eq!(write(read.epoch, &read.tree), bytes);
    }

    #[test]
    fn cuts_a_byte_more_and_spoilt_tags_are_1() {
        let bytes = file(1, &[leaf(1), keyed(&[2]), leaf(2)]);
        assert_eq!(refusal(&bytes), None);
        for end in 0..bytes.len() {
            assert_eq!(refusal(&bytes[..end]), Some(1));
        }
        let mut longer = bytes.clone();
        longer.push(0);
        assert_eq!(refusal(&longer), Some(1));
        for (place, byte) in [(0, 5), (5, 0), (5, 2), (5, 11), (6, 2), (41, 2), (41, 0)] {
            let mut spoilt = bytes.clone();
            spoilt[place] = byte;
            assert_eq!(refusal(&spoilt), Some(1), "{place} {byte}");
        }
        assert_eq!(refusal(&[6, 0, 0, 0, 0, 11]), Some(1));
    }

    #[test]
    fn unsound_trees_are_8() {
        let b = || BLANK_NODE;
        assert_eq!(four([b(), b(), b(), b(), b(), b(), b()]), None);
        assert_eq!(four([leaf(65535), b(), b(), b(), b(), b(), b()]), Some(8));
        assert_eq!(four([leaf(1), b(), b(), b(), leaf(1), b(), b()]), Some(8));
        // Nobody sits below, or nobody who has the key.
        assert_eq!(
            four([b(), keyed(&[]), b(), b(), leaf(1), b(), b()]),
            Some(8)
        );
        assert_eq!(
            four([leaf(1), keyed(&[1]), b(), b(), b(), b(), b()]),
            Some(8)
        );
        assert_eq!(four([leaf(1), keyed(&[]), b(), b(), b(), b(), b()]), None);
        // Unmerged, but not below, not seated, or named twice.
        assert_eq!(
            four([leaf(1), keyed(&[3]), leaf(2), b(), leaf(3), b(), b()]),
            Some(8)
        );
        assert_eq!(
            four([leaf(1), keyed(&[7]), leaf(2), b(), b(), b(), b()]),
            Some(8)
        );
        assert_eq!(
            four([leaf(1), b(), leaf(2), keyed(&[1, 1]), leaf(3), b(), leaf(4)]),
            Some(8)
        );
        assert_eq!(
            four([
                leaf(1),
                b(),
                leaf(2),
                keyed(&[4, 1, 2]),
                leaf(3),
                b(),
                leaf(4)
            ]),
            None
        );
    }

    #[test]
    fn malformed_comes_before_unsound() {
        let mut bytes = file(0, &[leaf(65535)]);
        assert_eq!(refusal(&bytes), Some(8));
        bytes.push(0);
        assert_eq!(refusal(&bytes), Some(1));
    }
}
