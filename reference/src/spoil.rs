//! Spoilt commit messages and tree files, and sound ones that no run leads to.

use crate::commit::{ask, Change, Commit, Counts};
use crate::member::MemberNumber;
use crate::message::{Message, MessageChange};
use crate::node_index::{node_count, NodeIndex};
use crate::path::Path;
use crate::public_half::{PublicHalf, SealedBox};
use crate::random::Random;
use crate::tree::{Node, Tree, MAX_DEPTH};
use crate::tree_file::{self, Raw};

const BYTES_BEFORE_KEYS: usize = 10;
const NEWCOMER_KEYS: usize = 64;
const KIND: usize = 5;
const ADD: u8 = 3;

/// Where the fields of a well-formed message begin.
struct Layout {
    leaf_key: usize,
    node_key_count: usize,
    box_count: usize,
}

impl Layout {
    fn of(message: &Message) -> Layout {
        let newcomer = match message.change {
            MessageChange::Add { .. } => NEWCOMER_KEYS,
            _ => 0,
        };
        let leaf_key = BYTES_BEFORE_KEYS + newcomer;
        let node_key_count = leaf_key + PublicHalf::BYTES;
        let box_count = node_key_count + 1 + PublicHalf::BYTES * message.node_keys.len();
        Layout {
            leaf_key,
            node_key_count,
            box_count,
        }
    }
}

/// A message that is spoilt in one place, or in a way that only changes who or what it names.
/// `members` are numbers that it may name instead of its own.
pub fn letter(bytes: &[u8], members: &[MemberNumber], random: &mut Random) -> Vec<u8> {
    match Message::read(bytes) {
        Ok(message) if random.chance(50) => fields(message, members, random).write(),
        Ok(message) => letter_bytes(bytes, &Layout::of(&message), random),
        Err(_) => any_bytes(bytes, random),
    }
}

/// Well formed still, but not what it was.
fn fields(mut message: Message, members: &[MemberNumber], random: &mut Random) -> Message {
    let any = any_member(members, random);
    match random.below(16) {
        0 => message.epoch = message.epoch.wrapping_add(1),
        1 => message.epoch = message.epoch.wrapping_sub(1),
        2 => message.epoch = *random.pick(&[0, u32::MAX, u32::MAX - 1]),
        3 => message.committer = any,
        4 => message.change = MessageChange::Renew,
        5 => message.change = MessageChange::Remove(any),
        6 => message.change = MessageChange::Remove(message.committer),
        7 => message.change = add_of(any, random),
        8 => message.change = add_of(message.committer, random),
        9 => message.node_keys.push(half(random)),
        10 => drop(message.node_keys.pop()),
        11 => message.boxes.push(sealed(random)),
        12 => drop(message.boxes.pop()),
        13 => message.node_keys = vec![half(random); random.below(256)],
        14 => message.boxes = vec![sealed(random); random.below(2000)],
        _ => message.leaf_key = half(random),
    }
    message
}

fn any_member(members: &[MemberNumber], random: &mut Random) -> MemberNumber {
    match random.below(8) {
        0 => MemberNumber::NOBODY,
        1 => MemberNumber(random.below(65536) as u16),
        _ if members.is_empty() => MemberNumber(0),
        _ => *random.pick(members),
    }
}

fn add_of(newcomer: MemberNumber, random: &mut Random) -> MessageChange {
    MessageChange::Add {
        newcomer,
        leaf_key: half(random),
        init_key: half(random),
    }
}

fn half(random: &mut Random) -> PublicHalf {
    PublicHalf(std::array::from_fn(|_| random.below(256) as u8))
}

fn sealed(random: &mut Random) -> SealedBox {
    SealedBox(std::array::from_fn(|_| random.below(256) as u8))
}

fn letter_bytes(bytes: &[u8], layout: &Layout, random: &mut Random) -> Vec<u8> {
    let mut spoilt = bytes.to_vec();
    match random.below(10) {
        0 => spoilt[0] = *random.pick(&[0, 1, 4, 6, 255]),
        1 => spoilt[KIND] = *random.pick(&[0, 1, 2, 3, 4, 255]),
        2 => step(&mut spoilt[layout.node_key_count], random),
        3 => step(&mut spoilt[layout.box_count + 1], random),
        4 => step(&mut spoilt[layout.box_count], random),
        5 => spoilt.truncate(*random.pick(&[
            0,
            1,
            KIND,
            BYTES_BEFORE_KEYS,
            layout.leaf_key,
            layout.node_key_count,
            layout.node_key_count + 1,
            layout.box_count,
            layout.box_count + 1,
            bytes.len() - 1,
        ])),
        6 => spoilt[8..10].copy_from_slice(&(random.below(65536) as u16).to_be_bytes()),
        // The newcomer's keys without an add, or an add without them.
        7 if spoilt[KIND] == ADD => drop(spoilt.drain(10..10 + NEWCOMER_KEYS)),
        7 => drop(spoilt.splice(10..10, [7; NEWCOMER_KEYS])),
        _ => return any_bytes(bytes, random),
    }
    spoilt
}

/// One more or one less.
fn step(byte: &mut u8, random: &mut Random) {
    *byte = if random.chance(50) {
        byte.wrapping_add(1)
    } else {
        byte.wrapping_sub(1)
    };
}

/// Spoils bytes without looking at what they mean.
fn any_bytes(bytes: &[u8], random: &mut Random) -> Vec<u8> {
    let mut spoilt = bytes.to_vec();
    match random.below(5) {
        0 => spoilt.truncate(random.below(bytes.len() + 1)),
        1 => drop(spoilt.pop()),
        2 => spoilt.push(random.below(256) as u8),
        3 => {
            let place = random.below(bytes.len() + 1);
            spoilt.insert(place, random.below(256) as u8);
        }
        _ => {
            for _ in 0..random.between(1, 3) {
                if !spoilt.is_empty() {
                    let place = random.below(spoilt.len());
                    spoilt[place] ^= 1 << random.below(8);
                }
            }
        }
    }
    spoilt
}

/// A tree file that is spoilt in one place.
pub fn tree_file(bytes: &[u8], random: &mut Random) -> Vec<u8> {
    match tree_file::read_raw(bytes) {
        Some(mut raw) if random.chance(60) => {
            spoil_nodes(&mut raw, random);
            raw.write()
        }
        Some(_) => tree_file_bytes(bytes, random),
        None => any_bytes(bytes, random),
    }
}

fn tree_file_bytes(bytes: &[u8], random: &mut Random) -> Vec<u8> {
    let mut spoilt = bytes.to_vec();
    match random.below(6) {
        0 => spoilt[0] = *random.pick(&[0, 1, 5, 7, 255]),
        1 => spoilt[5] = *random.pick(&[0, 1, 9, 10, 11, 12, 32, 64, 255]),
        2 => step(&mut spoilt[5], random),
        3 => {
            if let Some(place) = any_tag(bytes, random) {
                spoilt[place] = *random.pick(&[0, 1, 2, 3, 255]);
            }
        }
        _ => return any_bytes(bytes, random),
    }
    spoilt
}

/// Where some node begins in a well-formed file.
fn any_tag(bytes: &[u8], random: &mut Random) -> Option<usize> {
    let raw = tree_file::read_raw(bytes)?;
    let node = random.below(raw.nodes.len());
    let before = Raw {
        nodes: raw.nodes[..node].to_vec(),
        ..raw
    };
    Some(before.write().len())
}

fn spoil_nodes(raw: &mut Raw, random: &mut Random) {
    let members: Vec<MemberNumber> = raw.nodes.iter().filter_map(member_at).collect();
    let any = any_member(&members, random);
    let index = random.below(raw.nodes.len());
    let key = half(random);
    let node = &mut raw.nodes[index];
    let choice = random.below(8);
    match node {
        _ if choice == 0 => *node = Node::Blank,
        _ if choice == 1 => raw.epoch = *random.pick(&[0, u32::MAX, u32::MAX - 1]),
        Node::Leaf { member, .. } => *member = any,
        Node::Parent { unmerged, .. } => spoil_unmerged(unmerged, any, random),
        Node::Blank if NodeIndex(index).is_leaf() => *node = Node::Leaf { member: any, key },
        Node::Blank => {
            let unmerged = match random.below(3) {
                0 => members,
                1 => vec![any],
                _ => Vec::new(),
            };
            *node = Node::Parent { key, unmerged };
        }
    }
}

fn member_at(node: &Node<PublicHalf>) -> Option<MemberNumber> {
    match node {
        Node::Leaf { member, .. } => Some(*member),
        _ => None,
    }
}

fn spoil_unmerged(unmerged: &mut Vec<MemberNumber>, any: MemberNumber, random: &mut Random) {
    match random.below(4) {
        0 | 1 => unmerged.insert(random.below(unmerged.len() + 1), any),
        2 if !unmerged.is_empty() => {
            let again = *random.pick(unmerged);
            unmerged.push(again);
        }
        _ => drop(unmerged.pop()),
    }
}

/// A sound tree that need not come from any run: who is unmerged where is left to chance.
pub fn sound_tree(random: &mut Random) -> Tree<PublicHalf> {
    let depth = *random.pick(&[0, 1, 2, 2, 3, 3, 4, 5, 6, 10]);
    let mut nodes = vec![Node::Blank; node_count(depth)];
    let (occupied, keyed, unmerged) = (
        random.between(20, 100),
        random.between(0, 100),
        random.between(0, 90),
    );
    let mut next = random.below(5);
    for leaf in (0..nodes.len()).step_by(2) {
        if random.chance(occupied) {
            next += random.between(1, 3);
            nodes[leaf] = Node::Leaf {
                member: MemberNumber(next as u16),
                key: half(random),
            };
        }
    }
    for index in (1..nodes.len()).step_by(2) {
        if random.chance(keyed) {
            nodes[index] = sound_parent(&nodes, NodeIndex(index), unmerged, random);
        }
    }
    Tree::from_sound_nodes(depth, nodes)
}

/// A tree with all 1,024 leaves occupied and every parent keyed.
pub fn full_tree(random: &mut Random) -> Tree<PublicHalf> {
    let nodes = (0..node_count(MAX_DEPTH)).map(|index| match NodeIndex(index).is_leaf() {
        true => Node::Leaf {
            member: MemberNumber((index / 2) as u16),
            key: half(random),
        },
        false => Node::Parent {
            key: half(random),
            unmerged: Vec::new(),
        },
    });
    Tree::from_sound_nodes(MAX_DEPTH, nodes.collect())
}

/// An add that a full tree refuses by 6 or, where the newcomer is seated or nobody, by 5.
pub fn add_letter(epoch: u32, newcomer: MemberNumber, random: &mut Random) -> Message {
    Message {
        epoch,
        committer: MemberNumber(0),
        change: add_of(newcomer, random),
        leaf_key: half(random),
        node_keys: Vec::new(),
        boxes: Vec::new(),
    }
}

/// A keyed parent with some of those below it unmerged, but not all; blank over nobody.
fn sound_parent(
    nodes: &[Node<PublicHalf>],
    index: NodeIndex,
    of_hundred: usize,
    random: &mut Random,
) -> Node<PublicHalf> {
    let mut below: Vec<MemberNumber> = index
        .part()
        .leaves()
        .filter_map(|leaf| member_at(&nodes[leaf.node().0]))
        .collect();
    if below.is_empty() {
        return Node::Blank;
    }
    below.swap_remove(random.below(below.len()));
    below.retain(|_| random.chance(of_hundred));
    for place in (1..below.len()).rev() {
        below.swap(place, random.below(place + 1));
    }
    Node::Parent {
        key: half(random),
        unmerged: below,
    }
}

/// The message of some commit that is allowed in this tree, with keys and boxes of any bytes.
/// Nothing if nobody is seated.
pub fn letter_for(tree: &Tree<PublicHalf>, epoch: u32, random: &mut Random) -> Option<Message> {
    let members: Vec<MemberNumber> = tree.members().map(|(_, member)| member).collect();
    if members.is_empty() {
        return None;
    }
    let committer = *random.pick(&members);
    let change = match random.below(3) {
        0 => MessageChange::Renew,
        1 => MessageChange::Remove(*random.pick(&members)),
        _ => add_of(MemberNumber(random.below(3000) as u16), random),
    };
    let commit = Commit {
        committer,
        change: change.change(),
    };
    let (commit, change) = match commit.judge(tree) {
        Ok(_) => (commit, change),
        Err(_) => (
            Commit {
                committer,
                change: Change::Renew,
            },
            MessageChange::Renew,
        ),
    };
    let counts = counts_in(tree, commit)?;
    Some(Message {
        epoch,
        committer,
        change,
        leaf_key: half(random),
        node_keys: (0..counts.node_keys).map(|_| half(random)).collect(),
        boxes: (0..counts.boxes).map(|_| sealed(random)).collect(),
    })
}

fn counts_in(tree: &Tree<PublicHalf>, commit: Commit) -> Option<Counts> {
    let leaf = commit.judge(tree).ok()?;
    let mut after = tree.clone();
    ask(
        &mut after,
        commit.change,
        PublicHalf([0; PublicHalf::BYTES]),
    );
    Some(Counts::of(&Path::plan(&after, leaf), commit.change))
}

#[cfg(test)]
mod tests {
    use super::*;
    use crate::handset::Handset;
    use crate::tree_file::TreeFile;

    #[test]
    fn chance_trees_are_sound_and_take_the_letters_made_for_them() {
        let mut random = Random::new(1);
        for _ in 0..300 {
            let tree = sound_tree(&mut random);
            let file = tree_file::write(4, &tree);
            assert!(TreeFile::read(&file).is_ok());
            if let Some(letter) = letter_for(&tree, 5, &mut random) {
                let member = letter.committer.to_string();
                let mut handset = Handset::start(member.as_bytes(), &file).expect("sound");
                assert!(handset.take(&letter.write()).is_ok());
            }
        }
    }

    #[test]
    fn no_spoilt_bytes_make_a_handset_fail() {
        let mut random = Random::new(2);
        for _ in 0..2000 {
            let tree = sound_tree(&mut random);
            let file = tree_file::write(4, &tree);
            let spoilt = super::tree_file(&file, &mut random);
            let letter = letter_for(&tree, 5, &mut random).map_or(Vec::new(), |m| m.write());
            let members: Vec<MemberNumber> = tree.members().map(|(_, member)| member).collect();
            let spoilt_letter = super::letter(&letter, &members, &mut random);
            let letters = [spoilt_letter.as_slice(), &letter];
            crate::handset::play(b"3", &spoilt, letters);
        }
    }
}
