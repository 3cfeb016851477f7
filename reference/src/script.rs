//! The lines of a script.

use crate::commit::{Change, Commit};
use crate::member::MemberNumber;
use crate::refusal::Refusal;

pub const MAX_LINES: usize = 4096;

/// A line behind the founder's.
#[derive(Clone, Copy, Debug, PartialEq, Eq)]
pub enum Line {
    Commit(Commit),
    Read(MemberNumber),
}

/// A script whose founder is accepted; its other lines are not looked at yet.
pub struct Script<'a> {
    pub founder: MemberNumber,
    pub lines: Vec<&'a [u8]>,
}

/// Cuts a script into lines. Judges its length and its founder.
pub fn open(input: &[u8]) -> Result<Script<'_>, Refusal> {
    let mut lines = lines(input);
    if lines.is_empty() || lines.len() > MAX_LINES {
        return Err(Refusal::Malformed);
    }
    let founder = number(lines.remove(0)).ok_or(Refusal::Malformed)?;
    if founder.is_nobody() {
        return Err(Refusal::UnsoundTree);
    }
    Ok(Script { founder, lines })
}

/// A newline ends a line; behind the last line it is optional.
fn lines(input: &[u8]) -> Vec<&[u8]> {
    let mut lines: Vec<&[u8]> = input.split(|&byte| byte == b'\n').collect();
    if lines.last().is_some_and(|last| last.is_empty()) {
        lines.pop();
    }
    lines
}

/// A line behind the founder's, or nothing if it is none of the rules' lines.
pub fn line(bytes: &[u8]) -> Option<Line> {
    let words: Vec<&[u8]> = bytes.split(|&byte| byte == b' ').collect();
    match words[..] {
        [b"add", committer, newcomer] => commit(committer, Change::Add(number(newcomer)?)),
        [b"renew", committer] => commit(committer, Change::Renew),
        [b"remove", committer, member] => commit(committer, Change::Remove(number(member)?)),
        [b"read", member] => number(member).map(Line::Read),
        _ => None,
    }
}

fn commit(committer: &[u8], change: Change) -> Option<Line> {
    let committer = number(committer)?;
    Some(Line::Commit(Commit { committer, change }))
}

/// Decimal, 0 to 65535, without sign and without leading zero.
pub fn number(word: &[u8]) -> Option<MemberNumber> {
    let leading_zero = word.len() > 1 && word[0] == b'0';
    let only_digits = word.iter().all(u8::is_ascii_digit);
    if word.is_empty() || word.len() > 5 || leading_zero || !only_digits {
        return None;
    }
    let value = word
        .iter()
        .fold(0u32, |value, digit| 10 * value + u32::from(digit - b'0'));
    u16::try_from(value).ok().map(MemberNumber)
}

#[cfg(test)]
mod tests {
    use super::*;

    #[test]
    fn numbers_are_canonical() {
        for (word, value) in [("0", 0), ("7", 7), ("65534", 65534), ("65535", 65535)] {
            assert_eq!(number(word.as_bytes()), Some(MemberNumber(value)));
        }
        for word in [
            "", "00", "01", "+1", "-1", "65536", "99999", "100000", "1a", " 1", "1\r",
        ] {
            assert_eq!(number(word.as_bytes()), None, "{word:?}");
        }
    }

    #[test]
    fn lines_are_exact() {
        assert!(line(b"add 0 1").is_some());
        assert!(line(b"read 3").is_some());
        for bad in [
            &b"add 0"[..],
            b"add  0 1",
            b"add 0 1 ",
            b" add 0 1",
            b"add 0 1\r",
            b"ADD 0 1",
            b"",
            b"5",
            b"renew",
            b"renew 1 2",
            b"remove 1",
            b"read",
            b"add\t0 1",
            b"renew 65536",
            b"\xff",
        ] {
            assert_eq!(line(bad), None, "{bad:?}");
        }
    }

    #[test]
    fn the_last_newline_is_optional() {
        assert_eq!(lines(b"0\nrenew 0").len(), 2);
        assert_eq!(lines(b"0\nrenew 0\n").len(), 2);
        assert_eq!(lines(b"0\n\n").len(), 2);
        assert_eq!(lines(b"\n").len(), 1);
        assert_eq!(lines(b"").len(), 0);
    }

    #[test]
    fn a_script_is_judged_by_length_then_founder() {
        assert_eq!(open(b"").err(), Some(Refusal::Malformed));
        assert_eq!(open(b"x\n").err(), Some(Refusal::Malformed));
        assert_eq!(open(b"65535\n").err(), Some(Refusal::UnsoundTree));
        let mut long = b"65535\n".to_vec();
        long.extend(b"\n".repeat(MAX_LINES - 1));
        assert_eq!(open(&long).err(), Some(Refusal::UnsoundTree));
        long.push(b'x');
        assert_eq!(open(&long).err(), Some(Refusal::Malformed));
    }
}
