//! What `drill` prints: a whole group is played, each handset with its own vault.
//!
//! The tree is kept once for all handsets, since all of them take every commit. It moves on by
//! what stands in the message, read back from its bytes.

use std::collections::{BTreeMap, HashMap};
use std::fmt::Write;
use std::io;
use std::path::PathBuf;

use crate::commit::{ask, next_epoch, Change, Commit, Done};
use crate::handset::{init_key, judge_counts};
use crate::knowledge::{Exposure, Record, SealedTo};
use crate::member::MemberNumber;
use crate::message::{Message, MessageChange};
use crate::node_index::LeafIndex;
use crate::orders::{founder, newcomer_draws, removed_member, Order, View};
use crate::path::Path;
use crate::public_half::{PublicHalf, SealedBox};
use crate::refusal::Refusal;
use crate::script::{self, Line};
use crate::slot::Slot;
use crate::term::{TermId, Terms};
use crate::tree::{HeldHeights, Node, Tree};
use crate::tree_file;
use crate::vault::{Answer, Slots, Vault};

/// Where the tree files and messages of a run go.
pub enum Files {
    None,
    Folder(PathBuf),
    /// By name.
    Memory(BTreeMap<String, Vec<u8>>),
}

impl Files {
    fn are_kept(&self) -> bool {
        !matches!(self, Files::None)
    }

    fn keep(&mut self, name: String, bytes: Vec<u8>) -> io::Result<()> {
        match self {
            Files::None => Ok(()),
            Files::Folder(folder) => std::fs::write(folder.join(name), bytes),
            Files::Memory(files) => {
                files.insert(name, bytes);
                Ok(())
            }
        }
    }
}

/// All bytes that are printed for these bytes of input.
pub fn play(input: &[u8], files: &mut Files) -> io::Result<Vec<u8>> {
    let mut printed = String::new();
    match script::open(input) {
        Err(refusal) => print_refusal(&mut printed, refusal),
        Ok(script) => {
            let mut group = Group::founded(script.founder);
            group.keep_tree(files)?;
            for line in script.lines {
                match group.answer(line) {
                    Ok(Some(letter)) => group.keep_step(files, letter)?,
                    Ok(None) => {}
                    Err(refusal) => print_refusal(&mut printed, refusal),
                }
            }
            group.print_verdicts(&mut printed);
        }
    }
    Ok(printed.into_bytes())
}

fn print_refusal(printed: &mut String, refusal: Refusal) {
    // Writing to a string cannot fail.
    let _ = writeln!(printed, "{refusal}");
}

/// What a vault gave back while it carried out orders.
#[derive(Default)]
struct Answers {
    halves: Vec<PublicHalf>,
    boxes: Vec<SealedBox>,
}

/// A letter as bytes.
struct Letter(Vec<u8>);

struct Group {
    epoch: u32,
    tree: Tree<PublicHalf>,
    vaults: HashMap<MemberNumber, Vault>,
    terms: Terms,
    record: Record,
}

impl Group {
    fn founded(member: MemberNumber) -> Group {
        let mut terms = Terms::default();
        let mut vault = Vault::default();
        let answers = carry_out(&mut vault, &founder(), &mut terms, &[]);
        let mut group = Group {
            epoch: 0,
            tree: Tree::founded(member, answers.halves[0]),
            vaults: HashMap::from([(member, vault)]),
            terms,
            record: Record::default(),
        };
        group.record_leaf_key(member, Some(answers.halves[0]));
        group.record_epoch(None, member);
        group.check_slots(member);
        group
    }

    fn answer(&mut self, line: &[u8]) -> Result<Option<Letter>, Refusal> {
        match script::line(line).ok_or(Refusal::Malformed)? {
            Line::Read(member) => {
                self.expose(member);
                Ok(None)
            }
            Line::Commit(commit) => {
                let epoch = next_epoch(self.epoch)?;
                let leaf = commit.judge(&self.tree)?;
                Ok(Some(self.commit(epoch, commit, leaf)))
            }
        }
    }

    /// A commit that is allowed: made by one handset, taken by all others.
    fn commit(&mut self, epoch: u32, commit: Commit, committer_leaf: LeafIndex) -> Letter {
        let held = self.tree.all_held_heights();
        let change = self.message_change(commit.change);
        let newcomer_key = match change {
            MessageChange::Add { leaf_key, .. } => leaf_key,
            // Not looked at where nobody is added.
            _ => PublicHalf([0; PublicHalf::BYTES]),
        };
        let done = ask(&mut self.tree, commit.change, newcomer_key);
        let path = Path::plan(&self.tree, committer_leaf);
        let view = View::new(done, path, self.tree.nodes().len());

        let letter = self.make_letter(epoch, commit.committer, change, &view, &held);
        let message = Message::read(&letter.0).expect("a letter of our own is well formed");
        judge_counts(&message, view.path()).expect("a letter of our own has the rules' counts");
        self.record_boxes(&message.boxes);
        self.deliver(&message, &view, &held);

        view.path()
            .lay(&mut self.tree, message.leaf_key, &message.node_keys);
        self.epoch = epoch;
        self.record_commit(&message);
        self.check_slots(commit.committer);
        letter
    }

    /// A newcomer draws its keys before the message can name them.
    fn message_change(&mut self, change: Change) -> MessageChange {
        match change {
            Change::Renew => MessageChange::Renew,
            Change::Remove(member) => MessageChange::Remove(member),
            Change::Add(newcomer) => {
                let answers = self.order(newcomer, &newcomer_draws(), &[]);
                MessageChange::Add {
                    newcomer,
                    leaf_key: answers.halves[0],
                    init_key: answers.halves[1],
                }
            }
        }
    }

    /// The committer's vault gives what the message is put together from.
    fn make_letter(
        &mut self,
        epoch: u32,
        committer: MemberNumber,
        change: MessageChange,
        view: &View,
        held: &[HeldHeights],
    ) -> Letter {
        let orders = view.committer(held[view.path().leaf.0], init_key(&change));
        let answers = self.order(committer, &orders, &[]);
        let message = Message {
            epoch,
            committer,
            change,
            leaf_key: answers.halves[0],
            node_keys: answers.halves[1..].to_vec(),
            boxes: answers.boxes,
        };
        Letter(message.write())
    }

    /// Everybody else takes the message.
    fn deliver(&mut self, message: &Message, view: &View, held: &[HeldHeights]) {
        if let (MessageChange::Remove(member), Done::Removed(leaf)) = (message.change, view.done())
        {
            self.order(member, &removed_member(held[leaf.0]), &message.boxes);
            let vault = self.vaults.remove(&member).unwrap_or_default();
            assert_eq!(
                vault.held().count(),
                0,
                "{member} was removed and holds something"
            );
        }
        let members: Vec<_> = self.tree.members().collect();
        for (leaf, member) in members {
            if member == message.committer {
                continue;
            }
            let orders = if view.done() == Done::Added(leaf) {
                view.newcomer(leaf)
            } else {
                view.member(leaf, held[leaf.0])
            };
            self.order(member, &orders, &message.boxes);
        }
    }

    fn order(&mut self, member: MemberNumber, orders: &[Order], boxes: &[SealedBox]) -> Answers {
        let vault = self.vaults.entry(member).or_default();
        carry_out(vault, orders, &mut self.terms, boxes)
    }

    /// After a commit every vault holds exactly what the rules say that its member holds.
    fn check_slots(&self, committer: MemberNumber) {
        let committer = &self.vaults[&committer];
        let epoch_secrets = [Slot::APPLICATION_SECRET, Slot::INIT_SECRET]
            .map(|slot| committer.slot(slot).expect("the committer has the epoch"));
        let held = self.tree.all_held_heights();
        let mut seated = 0;
        for (leaf, member) in self.tree.members() {
            let expected = self.expected_slots(epoch_secrets, leaf, held[leaf.0]);
            assert_eq!(
                self.vaults[&member].slots(),
                &expected,
                "the vault of {member} at epoch {}",
                self.epoch
            );
            seated += 1;
        }
        assert_eq!(
            seated,
            self.vaults.len(),
            "a handset that is not seated holds nothing"
        );
    }

    fn expected_slots(
        &self,
        [application_secret, init_secret]: [TermId; 2],
        leaf: LeafIndex,
        held: HeldHeights,
    ) -> Slots {
        let mut expected = [None; Slot::COUNT];
        expected[0] = Some(application_secret);
        expected[1] = Some(init_secret);
        for height in std::iter::once(0).chain(held.iter()) {
            let slot = Slot::node_key(height);
            expected[usize::from(slot.0)] = match self.tree.node(leaf.part(height).node()) {
                Node::Leaf { key, .. } | Node::Parent { key, .. } => self.terms.of_half(key),
                Node::Blank => None,
            };
        }
        expected
    }

    fn expose(&mut self, member: MemberNumber) {
        let Some(vault) = self.vaults.get(&member) else {
            return;
        };
        self.record.expose(Exposure {
            member,
            epoch: self.epoch as usize,
            leaf_key: vault
                .slot(Slot::LEAF_KEY)
                .expect("a seated member has a leaf key"),
            held: vault.held().collect(),
        });
    }

    fn record_boxes(&mut self, boxes: &[SealedBox]) {
        for sealed in boxes {
            let (half, _) = sealed.0.split_at(PublicHalf::BYTES);
            let half = PublicHalf(half.try_into().expect("a box begins with a half"));
            let key = self
                .terms
                .of_half(&half)
                .expect("boxes are sealed to keys of the run");
            let content = self
                .terms
                .opened(sealed, key)
                .expect("boxes hold terms of the run");
            self.record.push_box(SealedTo { key, content });
        }
    }

    fn record_commit(&mut self, message: &Message) {
        match message.change {
            MessageChange::Renew => {}
            MessageChange::Remove(member) => self.record_leaf_key(member, None),
            MessageChange::Add {
                newcomer, leaf_key, ..
            } => self.record_leaf_key(newcomer, Some(leaf_key)),
        }
        self.record_leaf_key(message.committer, Some(message.leaf_key));
        self.record_epoch(Some(message.committer), message.committer);
    }

    fn record_leaf_key(&mut self, member: MemberNumber, key: Option<PublicHalf>) {
        let key = key.and_then(|half| self.terms.of_half(&half));
        self.record.set_leaf_key(member, self.epoch as usize, key);
    }

    /// `holder` is anybody who is seated: all have the same application secret.
    fn record_epoch(&mut self, committer: Option<MemberNumber>, holder: MemberNumber) {
        let secret = self.vaults[&holder]
            .slot(Slot::APPLICATION_SECRET)
            .expect("a seated member has the application secret");
        self.record.push_epoch(committer, secret);
    }

    fn keep_step(&self, files: &mut Files, letter: Letter) -> io::Result<()> {
        files.keep(format!("letter-{}", self.epoch), letter.0)?;
        self.keep_tree(files)
    }

    fn keep_tree(&self, files: &mut Files) -> io::Result<()> {
        if !files.are_kept() {
            return Ok(());
        }
        let bytes = tree_file::write(self.epoch, &self.tree);
        files.keep(format!("tree-{}", self.epoch), bytes)
    }

    fn print_verdicts(&self, printed: &mut String) {
        let open = self.record.open();
        let known = self.record.known(&self.terms);
        for (epoch, (open, known)) in open.into_iter().zip(known).enumerate() {
            let open = if open { "open" } else { "shut" };
            let known = if known { "known" } else { "unknown" };
            let _ = writeln!(printed, "{epoch} {open} {known}");
        }
    }
}

/// Our own orders are carried out to the last, or this program has a bug.
fn carry_out(
    vault: &mut Vault,
    orders: &[Order],
    terms: &mut Terms,
    boxes: &[SealedBox],
) -> Answers {
    let mut answers = Answers::default();
    for order in orders {
        match vault.carry_out(*order, terms, boxes) {
            Ok(None) => {}
            Ok(Some(Answer::Public(half))) => answers.halves.push(half),
            Ok(Some(Answer::Sealed(sealed))) => answers.boxes.push(sealed),
            Err(fault) => panic!("the vault refuses {order}: {fault:?}"),
        }
    }
    answers
}
