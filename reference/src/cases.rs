//! Calls of `handset` for the comparison: a member, a tree file and messages.

use std::collections::BTreeMap;

use crate::drill::{self, Files};
use crate::handset::Handset;
use crate::member::MemberNumber;
use crate::message::Message;
use crate::random::Random;
use crate::spoil;
use crate::tree_file;

pub struct Case {
    pub what: &'static str,
    pub member: String,
    pub tree: Vec<u8>,
    pub messages: Vec<Vec<u8>>,
}

/// The files of a run, and who is named in its messages.
pub struct Run {
    files: BTreeMap<String, Vec<u8>>,
    epochs: usize,
    members: Vec<MemberNumber>,
}

impl Run {
    pub fn of(script: &[u8]) -> std::io::Result<Run> {
        let mut kept = Files::Memory(BTreeMap::new());
        drill::play(script, &mut kept)?;
        let files = match kept {
            Files::Memory(files) => files,
            Files::None | Files::Folder(_) => BTreeMap::new(),
        };
        let mut members: Vec<MemberNumber> = files
            .values()
            .filter_map(|bytes| Message::read(bytes).ok())
            .flat_map(|message| [message.committer, message.change.other_member()])
            .filter(|member| !member.is_nobody())
            .collect();
        members.sort();
        members.dedup();
        let epochs = files
            .keys()
            .filter(|name| name.starts_with("tree-"))
            .count();
        Ok(Run {
            files,
            epochs,
            members,
        })
    }

    fn tree(&self, epoch: usize) -> Option<&Vec<u8>> {
        self.files.get(&format!("tree-{epoch}"))
    }

    fn letter(&self, epoch: usize) -> Option<&Vec<u8>> {
        self.files.get(&format!("letter-{epoch}"))
    }

    fn any_member(&self, random: &mut Random) -> String {
        match random.below(12) {
            0 => random
                .pick(&[
                    "", "01", "+1", "-1", "65535", "65536", "x", " 1", "1 ", "00",
                ])
                .to_string(),
            1 => random.below(70).to_string(),
            _ if self.members.is_empty() => "0".into(),
            _ => random.pick(&self.members).to_string(),
        }
    }
}

/// Some calls on the files of a run, true and spoilt, and some on trees of no run.
pub fn cases(run: &Run, random: &mut Random) -> Vec<Case> {
    let mut cases = Vec::new();
    cases.extend(true_letters(run, random));
    cases.extend(spoilt_letters(run, random));
    cases.extend(spoilt_letters(run, random));
    cases.extend(spoilt_tree(run, random));
    cases.extend(spoilt_tree(run, random));
    cases.push(chance_tree(random));
    cases.push(chance_tree(random));
    cases
}

const MOST_MESSAGES: usize = 40;

/// A member takes the letters of the run from some epoch on.
fn true_letters(run: &Run, random: &mut Random) -> Option<Case> {
    let start = random.below(run.epochs);
    let last = run.epochs.min(start + MOST_MESSAGES);
    let skip = random.chance(20);
    let letters = (start + 1..last).filter_map(|epoch| run.letter(epoch));
    let messages = letters.filter(|_| !(skip && random.chance(10))).cloned();
    let messages = messages.collect();
    Some(Case {
        what: "letters of a run",
        member: run.any_member(random),
        tree: run.tree(start)?.clone(),
        messages,
    })
}

/// Spoilt letters come before the true one of each epoch.
fn spoilt_letters(run: &Run, random: &mut Random) -> Option<Case> {
    let start = random.below(run.epochs);
    let last = run.epochs.min(start + 4);
    let mut messages = Vec::new();
    for letter in (start + 1..last).filter_map(|epoch| run.letter(epoch)) {
        for _ in 0..random.between(1, 10) {
            messages.push(spoil::letter(letter, &run.members, random));
        }
        messages.push(letter.clone());
    }
    Some(Case {
        what: "spoilt letters",
        member: run.any_member(random),
        tree: run.tree(start)?.clone(),
        messages,
    })
}

fn spoilt_tree(run: &Run, random: &mut Random) -> Option<Case> {
    let epoch = random.below(run.epochs);
    let mut tree = spoil::tree_file(run.tree(epoch)?, random);
    if random.chance(20) {
        tree = spoil::tree_file(&tree, random);
    }
    let messages = run.letter(epoch + 1).cloned().into_iter().collect();
    Some(Case {
        what: "a spoilt tree file",
        member: run.any_member(random),
        tree,
        messages,
    })
}

/// A sound tree of no run, and letters that fit it, some of them spoilt.
fn chance_tree(random: &mut Random) -> Case {
    let tree = spoil::sound_tree(random);
    let members: Vec<MemberNumber> = tree.members().map(|(_, member)| member).collect();
    let epoch = *random.pick(&[0, 1, 77, 65535, u32::MAX - 3, u32::MAX]);
    let file = tree_file::write(epoch, &tree);
    let member = match members.is_empty() || random.chance(10) {
        true => random.below(3000).to_string(),
        false => random.pick(&members).to_string(),
    };
    let mut messages = Vec::new();
    // The letters are made for the tree to which the ones before have led this handset.
    if let Ok(mut handset) = Handset::start(member.as_bytes(), &file) {
        for _ in 0..random.between(1, 8) {
            let next = handset.epoch().wrapping_add(1);
            let Some(letter) = spoil::letter_for(handset.tree(), next, random) else {
                break;
            };
            let mut bytes = letter.write();
            if random.chance(20) {
                bytes = spoil::letter(&bytes, &members, random);
            }
            // Refused or taken, the handset says where it stands now.
            let _ = handset.take(&bytes);
            messages.push(bytes);
        }
    }
    Case {
        what: "a tree of no run",
        member,
        tree: file,
        messages,
    }
}

/// Every cut of one letter and of one tree file, and every byte of their heads in turn.
pub fn exhaustive_cases() -> std::io::Result<Vec<Case>> {
    let run = Run::of(b"0\nadd 0 1\nadd 0 2\nrenew 2\nadd 1 3\n")?;
    let (Some(tree), Some(letter)) = (run.tree(1), run.letter(2)) else {
        return Ok(Vec::new());
    };
    let mut messages = cuts(letter);
    messages.extend(heads(letter, 10));
    messages.push(letter.clone());
    let mut cases = vec![Case {
        what: "every cut and head of a letter",
        member: "1".into(),
        tree: tree.clone(),
        messages,
    }];
    cases.push(full_tree());
    let spoilt_trees = cuts(tree).into_iter().chain(heads(tree, 9));
    cases.extend(spoilt_trees.map(|tree| Case {
        what: "every cut and head of a tree file",
        member: "1".into(),
        tree,
        messages: vec![letter.clone()],
    }));
    Ok(cases)
}

/// Nobody is added to a full tree, and a letter that is refused for more is refused by the lowest.
fn full_tree() -> Case {
    let mut random = Random::new(0);
    let tree = spoil::full_tree(&mut random);
    let mut messages: Vec<Vec<u8>> = [1024, 5, 0, 65534, 65535]
        .map(|newcomer| spoil::add_letter(1, MemberNumber(newcomer), &mut random).write())
        .into();
    messages.extend(spoil::letter_for(&tree, 1, &mut random).map(|letter| letter.write()));
    Case {
        what: "a full tree",
        member: "700".into(),
        tree: tree_file::write(0, &tree),
        messages,
    }
}

fn cuts(bytes: &[u8]) -> Vec<Vec<u8>> {
    (0..bytes.len()).map(|end| bytes[..end].to_vec()).collect()
}

/// Each of the first bytes with other values.
fn heads(bytes: &[u8], length: usize) -> Vec<Vec<u8>> {
    (0..length.min(bytes.len()))
        .flat_map(|place| {
            [0, 1, 2, 3, 4, 5, 6, 11, 255].map(|byte| {
                let mut spoilt = bytes.to_vec();
                spoilt[place] = byte;
                spoilt
            })
        })
        .collect()
}
