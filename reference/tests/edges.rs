//! Points of the rules that the worked cases do not touch.

use std::collections::BTreeMap;

use reference::drill::{self, Files};
use reference::handset::{self, Handset};
use reference::member::MemberNumber;
use reference::message::{Message, MessageChange};
use reference::orders::Order;
use reference::public_half::{PublicHalf, SealedBox};
use reference::random::Random;
use reference::slot::Slot;
use reference::spoil;
use reference::tree::Node;
use reference::tree_file::{self, Raw};

fn half(byte: u8) -> PublicHalf {
    PublicHalf([byte; 32])
}

fn leaf(member: u16) -> Node<PublicHalf> {
    Node::Leaf {
        member: MemberNumber(member),
        key: half(member as u8),
    }
}

fn keyed(unmerged: &[u16]) -> Node<PublicHalf> {
    Node::Parent {
        key: half(99),
        unmerged: unmerged.iter().copied().map(MemberNumber).collect(),
    }
}

fn file(epoch: u32, depth: u32, nodes: Vec<Node<PublicHalf>>) -> Vec<u8> {
    Raw {
        epoch,
        depth,
        nodes,
    }
    .write()
}

fn letter(
    epoch: u32,
    committer: u16,
    change: MessageChange,
    node_keys: usize,
    boxes: usize,
) -> Vec<u8> {
    Message {
        epoch,
        committer: MemberNumber(committer),
        change,
        leaf_key: half(200),
        node_keys: vec![half(201); node_keys],
        boxes: vec![SealedBox([202; 48]); boxes],
    }
    .write()
}

fn add(newcomer: u16) -> MessageChange {
    MessageChange::Add {
        newcomer: MemberNumber(newcomer),
        leaf_key: half(150),
        init_key: half(151),
    }
}

fn remove(member: u16) -> MessageChange {
    MessageChange::Remove(MemberNumber(member))
}

fn printed(member: &str, tree: &[u8], letters: &[Vec<u8>]) -> String {
    let letters = letters.iter().map(Vec::as_slice);
    String::from_utf8(handset::play(member.as_bytes(), tree, letters)).expect("ASCII")
}

/// A refusal's number, as the handset prints it.
fn refused(number: u8) -> String {
    format!("{number}\n\n")
}

#[test]
fn at_the_last_epoch_every_well_formed_message_is_9() {
    let tree = file(u32::MAX, 0, vec![leaf(4)]);
    let renewal = letter(0, 4, MessageChange::Renew, 0, 0);
    let cut = renewal[..renewal.len() - 1].to_vec();
    let stranger = letter(7, 5, MessageChange::Renew, 3, 3);
    let answers = printed("4", &tree, &[renewal, cut, stranger]);
    assert_eq!(answers, refused(9) + &refused(1) + &refused(9));
}

#[test]
fn the_lowest_number_is_the_answer() {
    let nodes = vec![leaf(1), keyed(&[]), leaf(2)];
    let tree = file(9, 1, nodes);
    let cases = [
        (letter(11, 7, MessageChange::Renew, 0, 0), 2),
        (letter(9, 1, MessageChange::Renew, 1, 1), 2),
        (letter(10, 7, remove(7), 0, 0), 3),
        (letter(10, 65535, MessageChange::Renew, 0, 0), 3),
        (letter(10, 1, remove(1), 0, 0), 4),
        (letter(10, 1, remove(65535), 0, 0), 4),
        (letter(10, 1, add(2), 0, 0), 5),
        (letter(10, 1, add(65535), 0, 0), 5),
        (letter(10, 1, MessageChange::Renew, 1, 2), 7),
        (letter(10, 1, MessageChange::Renew, 2, 1), 7),
        (letter(10, 1, MessageChange::Renew, 255, 60000), 7),
        (letter(10, 1, add(3), 2, 2), 7),
    ];
    for (bytes, number) in cases {
        assert_eq!(printed("2", &tree, &[bytes]), refused(number));
    }
}

#[test]
fn a_handset_that_is_not_seated_follows_only_its_own_add() {
    let tree = file(9, 1, vec![leaf(1), keyed(&[]), leaf(2)]);
    let mine = letter(10, 1, add(3), 2, 3);
    let others = letter(10, 1, add(4), 2, 3);
    let from_me = letter(10, 3, add(3), 2, 3);
    let renewal = letter(10, 1, MessageChange::Renew, 1, 1);
    let answers = printed("3", &tree, &[others, from_me, renewal, mine]);
    assert!(answers.starts_with(&refused(3).repeat(3)));
    assert!(answers[9..].starts_with("draw 2\npublic 2\n"));
    // The number of nobody is spared 3, and refused by 5.
    let nobody = letter(10, 1, add(65535), 2, 3);
    assert_eq!(printed("65535", &tree, &[nobody]), refused(5));
}

/// No run leads here, but the file is sound: a key over an empty half.
#[test]
fn a_path_blanks_a_keyed_parent_beside_nobody() {
    let tree = file(0, 1, vec![leaf(1), keyed(&[]), Node::Blank]);
    let renewal = letter(1, 1, MessageChange::Renew, 0, 0);
    let mut handset = Handset::start(b"1", &tree).expect("a sound file");
    let orders = handset.take(&renewal).expect("an allowed commit");
    let orders: Vec<String> = orders.iter().map(ToString::to_string).collect();
    let expected = [
        "forget 2",
        "draw 2",
        "public 2",
        "draw 19",
        "forget 3",
        "mix 1 19 21",
        "forget 19",
        "forget 0",
        "forget 1",
        "seed 21 1",
        "talk 21 0",
        "forget 21",
    ];
    assert_eq!(orders, expected);
    assert_eq!(handset.tree().nodes()[1], Node::Blank);
}

/// Case C: the path comes in above a parent that stays blank, so at level 0.
#[test]
fn levels_count_the_keys_that_are_laid() {
    let mut files = Files::Memory(BTreeMap::new());
    drill::play(b"0\nadd 0 1\nadd 0 2\nrenew 2\n", &mut files).expect("memory takes all");
    let Files::Memory(files) = files else {
        return;
    };
    let orders = printed("0", &files["tree-2"], &[files["letter-3"].clone()]);
    let expected = "\
open 0 3 19
forget 4
lock 19 4
up 19 20
forget 19
mix 1 20 21
forget 20
forget 0
forget 1
seed 21 1
talk 21 0
forget 21

";
    assert_eq!(orders, expected);
}

/// 0 is read with the leaf key that its own commit to epoch 2 brought. That does not give the
/// commit, and epoch 2 stays shut between two open ones.
#[test]
fn an_exposure_does_not_give_the_commit_that_the_member_made() {
    let script = b"0\nadd 0 1\nread 0\nrenew 0\nrenew 1\nread 0\n";
    let verdicts = drill::play(script, &mut Files::None).expect("no file is written");
    let expected = "0 shut unknown\n1 open known\n2 shut unknown\n3 open known\n";
    assert_eq!(String::from_utf8_lossy(&verdicts), expected);
}

/// 1 is read after two commits of 0 that it took; its leaf key was the same all the time.
#[test]
fn a_later_reading_gives_commits_before_it() {
    let script = b"0\nadd 0 1\nread 0\nrenew 0\nrenew 0\nread 1\n";
    let verdicts = drill::play(script, &mut Files::None).expect("no file is written");
    let expected = "0 shut unknown\n1 open known\n2 open known\n3 open known\n";
    assert_eq!(String::from_utf8_lossy(&verdicts), expected);
}

#[test]
fn a_member_that_left_and_came_back_gives_nothing_of_the_time_between() {
    let script = b"0\nadd 0 1\nread 1\nremove 0 1\nadd 0 1\nread 9\n";
    let verdicts = drill::play(script, &mut Files::None).expect("no file is written");
    let expected = "0 shut unknown\n1 open known\n2 shut unknown\n3 shut unknown\n";
    assert_eq!(String::from_utf8_lossy(&verdicts), expected);
}

/// The slots that are filled, and nothing of what is in them.
struct Filled(u64);

impl Filled {
    fn holding(handset: &Handset, member: MemberNumber) -> Filled {
        let Some(leaf) = handset.tree().leaf_of(member) else {
            return Filled(0);
        };
        let held = handset.tree().held_heights(leaf);
        Filled(
            held.iter()
                .fold(0b111, |filled, height| filled | 1 << (2 + height)),
        )
    }

    fn read(&self, slot: Slot) {
        assert!(self.0 & (1 << slot.0) != 0, "{slot} is read and empty");
    }

    fn write(&mut self, slot: Slot) {
        assert!(self.0 & (1 << slot.0) == 0, "{slot} is written and filled");
        assert!(slot.0 <= 23, "{slot} is named");
        self.0 |= 1 << slot.0;
    }

    fn carry_out(&mut self, order: Order) {
        match order {
            Order::Draw(to) => self.write(to),
            Order::Up(from, to)
            | Order::Lock(from, to)
            | Order::Seed(from, to)
            | Order::Talk(from, to)
            | Order::Open(_, from, to) => {
                self.read(from);
                self.write(to);
            }
            Order::Mix(init, path, to) => {
                self.read(init);
                self.read(path);
                self.write(to);
            }
            Order::Seal(from, _) | Order::Public(from) => self.read(from),
            Order::Forget(slot) => {
                self.read(slot);
                self.0 &= !(1 << slot.0);
            }
        }
    }
}

/// Also in sound trees that no run leads to, for every role.
#[test]
fn orders_fill_and_empty_the_slots_as_the_rules_say() {
    let mut random = Random::new(11);
    for _ in 0..1500 {
        let tree = spoil::sound_tree(&mut random);
        let Some(letter) = spoil::letter_for(&tree, 6, &mut random) else {
            continue;
        };
        let bytes = tree_file::write(5, &tree);
        let newcomer = letter.change.other_member();
        let members = tree.members().map(|(_, member)| member).take(40);
        for member in members
            .chain([newcomer])
            .filter(|member| !member.is_nobody())
        {
            let mut handset =
                Handset::start(member.to_string().as_bytes(), &bytes).expect("a sound file");
            let mut filled = Filled::holding(&handset, member);
            for order in handset.take(&letter.write()).expect("an allowed commit") {
                filled.carry_out(order);
            }
            assert_eq!(filled.0, Filled::holding(&handset, member).0, "{member}");
        }
    }
}
