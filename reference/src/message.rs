//! Commit messages as bytes, both ways.

use crate::commit::{Change, Commit};
use crate::member::MemberNumber;
use crate::public_half::{PublicHalf, SealedBox};
use crate::reader::Reader;
use crate::refusal::Refusal;

const FORMAT: u8 = 5;
const RENEW: u8 = 1;
const REMOVE: u8 = 2;
const ADD: u8 = 3;

/// A change as a message has it: an add brings the newcomer's keys along.
#[derive(Clone, Copy, Debug, PartialEq, Eq)]
pub enum MessageChange {
    Renew,
    Remove(MemberNumber),
    Add {
        newcomer: MemberNumber,
        leaf_key: PublicHalf,
        init_key: PublicHalf,
    },
}

impl MessageChange {
    pub fn change(&self) -> Change {
        match *self {
            MessageChange::Renew => Change::Renew,
            MessageChange::Remove(member) => Change::Remove(member),
            MessageChange::Add { newcomer, .. } => Change::Add(newcomer),
        }
    }

    fn kind(&self) -> u8 {
        match self {
            MessageChange::Renew => RENEW,
            MessageChange::Remove(_) => REMOVE,
            MessageChange::Add { .. } => ADD,
        }
    }

    pub fn other_member(&self) -> MemberNumber {
        match *self {
            MessageChange::Renew => MemberNumber::NOBODY,
            MessageChange::Remove(member) => member,
            MessageChange::Add { newcomer, .. } => newcomer,
        }
    }
}

#[derive(Clone, Debug, PartialEq, Eq)]
pub struct Message {
    /// The epoch that the commit leads to.
    pub epoch: u32,
    pub committer: MemberNumber,
    pub change: MessageChange,
    /// The committer's new leaf key.
    pub leaf_key: PublicHalf,
    pub node_keys: Vec<PublicHalf>,
    /// The welcome box is the last, for an add.
    pub boxes: Vec<SealedBox>,
}

impl Message {
    pub fn commit(&self) -> Commit {
        Commit {
            committer: self.committer,
            change: self.change.change(),
        }
    }

    pub fn read(bytes: &[u8]) -> Result<Message, Refusal> {
        read(bytes).ok_or(Refusal::Malformed)
    }

    pub fn write(&self) -> Vec<u8> {
        let mut bytes = vec![FORMAT];
        bytes.extend(self.epoch.to_be_bytes());
        bytes.push(self.change.kind());
        bytes.extend(self.committer.0.to_be_bytes());
        bytes.extend(self.change.other_member().0.to_be_bytes());
        if let MessageChange::Add {
            leaf_key, init_key, ..
        } = &self.change
        {
            bytes.extend(leaf_key.0);
            bytes.extend(init_key.0);
        }
        bytes.extend(self.leaf_key.0);
        // The largest tree has 10 levels and 1,024 leaves, so both counts fit.
        bytes.push(self.node_keys.len() as u8);
        bytes.extend(self.node_keys.iter().flat_map(|key| key.0));
        bytes.extend((self.boxes.len() as u16).to_be_bytes());
        bytes.extend(self.boxes.iter().flat_map(|sealed| sealed.0));
        bytes
    }
}

fn read(bytes: &[u8]) -> Option<Message> {
    let mut reader = Reader::new(bytes);
    if reader.byte()? != FORMAT {
        return None;
    }
    let epoch = reader.u32()?;
    let kind = reader.byte()?;
    let committer = reader.member()?;
    let other = reader.member()?;
    let change = match kind {
        RENEW if other.is_nobody() => MessageChange::Renew,
        REMOVE => MessageChange::Remove(other),
        ADD => MessageChange::Add {
            newcomer: other,
            leaf_key: reader.public_half()?,
            init_key: reader.public_half()?,
        },
        _ => return None,
    };
    let leaf_key = reader.public_half()?;
    let node_key_count = reader.byte()?;
    let node_keys = reader.list(node_key_count.into(), Reader::public_half)?;
    let box_count = reader.u16()?;
    let boxes = reader.list(box_count.into(), Reader::sealed_box)?;
    reader.is_at_end().then_some(Message {
        epoch,
        committer,
        change,
        leaf_key,
        node_keys,
        boxes,
    })
}

#[cfg(test)]
mod tests {
    use super::*;

    fn half(byte: u8) -> PublicHalf {
        PublicHalf([byte; 32])
    }

    fn add() -> Message {
        Message {
            epoch: 0x01020304,
            committer: MemberNumber(0x0506),
            change: MessageChange::Add {
                newcomer: MemberNumber(0x0708),
                leaf_key: half(9),
                init_key: half(10),
            },
            leaf_key: half(11),
            node_keys: vec![half(12), half(13)],
            boxes: vec![SealedBox([14; 48]); 3],
        }
    }

    fn renewal() -> Message {
        Message {
            change: MessageChange::Renew,
            ..add()
        }
    }

    #[test]
    fn what_is_written_is_read_again() {
        let removal = Message {
            change: MessageChange::Remove(MemberNumber::NOBODY),
            ..add()
        };
        for message in [add(), renewal(), removal] {
            assert_eq!(Message::read(&message.write()), Ok(message));
        }
    }

    #[test]
    fn the_fields_lie_as_the_rules_say() {
        let bytes = add().write();
        assert_eq!(bytes.len(), 45 + 32 * 2 + 48 * 3 + 64);
        assert_eq!(bytes[..10], [5, 1, 2, 3, 4, 3, 5, 6, 7, 8]);
        assert_eq!(
            (bytes[10], bytes[42], bytes[74], bytes[106]),
            (9, 10, 11, 2)
        );
        assert_eq!(bytes[107 + 64..107 + 66], [0, 3]);
        assert_eq!(renewal().write().len(), 45 + 32 * 2 + 48 * 3);
    }

    #[test]
    fn every_cut_and_a_byte_more_are_malformed() {
        for message in [add(), renewal()] {
            let mut bytes = message.write();
            for end in 0..bytes.len() {
                assert_eq!(Message::read(&bytes[..end]), Err(Refusal::Malformed));
            }
            bytes.push(0);
            assert_eq!(Message::read(&bytes), Err(Refusal::Malformed));
        }
    }

    #[test]
    fn spoilt_tags_and_counts_are_malformed() {
        let spoilt = |place: usize, byte: u8| {
            let mut bytes = renewal().write();
            bytes[place] = byte;
            Message::read(&bytes)
        };
        for (place, byte) in [
            (0, 6),
            (0, 0),
            (5, 0),
            (5, 4),
            (5, 3),
            (9, 0),
            (42, 1),
            (42, 3),
        ] {
            assert_eq!(
                spoilt(place, byte),
                Err(Refusal::Malformed),
                "{place} {byte}"
            );
        }
        // A renewal and a removal differ in their kind only.
        assert!(spoilt(5, 2).is_ok());
    }

    #[test]
    fn more_keys_and_boxes_than_any_tree_needs_are_still_a_message() {
        let large = Message {
            node_keys: vec![half(1); 255],
            boxes: vec![SealedBox([2; 48]); 65535],
            ..renewal()
        };
        assert_eq!(Message::read(&large.write()), Ok(large));
    }
}
