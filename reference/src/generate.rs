//! Scripts for the comparison, made from a seed.

use std::fmt::Write;

use crate::random::Random;

/// What a script is meant to bring out.
#[derive(Clone, Copy, Debug, PartialEq, Eq)]
pub enum Kind {
    /// Few members, few lines, everything that can happen, refusals too.
    Small,
    /// Some dozen members, a few hundred lines.
    Dense,
    /// Up to 1,024 members and back.
    Growth,
    /// Members come and go, so that many are unmerged.
    Churn,
    /// Many readings.
    Readings,
    /// Readings of members that committed shortly before or commit shortly after.
    Committers,
    /// Lines that are spoilt.
    Malformed,
    /// Numbers at the edges.
    Numbers,
    /// About 4,096 lines.
    Long,
}

impl Kind {
    pub const ALL: [(&'static str, Kind); 9] = [
        ("small", Kind::Small),
        ("dense", Kind::Dense),
        ("growth", Kind::Growth),
        ("churn", Kind::Churn),
        ("readings", Kind::Readings),
        ("committers", Kind::Committers),
        ("malformed", Kind::Malformed),
        ("numbers", Kind::Numbers),
        ("long", Kind::Long),
    ];

    pub fn named(name: &str) -> Option<Kind> {
        Kind::ALL
            .iter()
            .find(|(other, _)| *other == name)
            .map(|(_, kind)| *kind)
    }

    pub fn name(self) -> &'static str {
        Kind::ALL
            .iter()
            .find(|(_, other)| *other == self)
            .map_or("", |(name, _)| name)
    }

    /// The kind of the script with this number in a comparison: large ones are rare.
    pub fn of_turn(turn: usize) -> Kind {
        match turn % 400 {
            399 => Kind::Growth,
            199 => Kind::Long,
            small => match small % 10 {
                0..=2 => Kind::Small,
                3 => Kind::Dense,
                4 | 5 => Kind::Churn,
                6 => Kind::Readings,
                7 => Kind::Committers,
                8 => Kind::Malformed,
                _ => Kind::Numbers,
            },
        }
    }
}

/// The script for a seed. The same seed and kind give the same bytes.
pub fn script(seed: u64, kind: Kind) -> Vec<u8> {
    let mut draft = Draft::new(Random::new(seed ^ ((kind as u64) << 56)));
    match kind {
        Kind::Small => draft.mixed(1, 30, 10, 5),
        Kind::Dense => draft.mixed(50, 300, 50, 3),
        Kind::Growth => draft.growth(),
        Kind::Churn => draft.churn(),
        Kind::Readings => draft.readings(),
        Kind::Committers => draft.committers(),
        Kind::Malformed => return draft.malformed(),
        Kind::Numbers => return draft.numbers(),
        Kind::Long => return draft.long(),
    }
    draft.text.into_bytes()
}

/// A script that is being written, and who is seated by its lines so far.
struct Draft {
    random: Random,
    text: String,
    lines: usize,
    seated: Vec<usize>,
    next_new: usize,
}

const MOST_LINES: usize = 4096;
const MOST_MEMBERS: usize = 1024;

impl Draft {
    fn new(random: Random) -> Self {
        Draft {
            random,
            text: String::new(),
            lines: 0,
            seated: Vec::new(),
            next_new: 0,
        }
    }

    fn line(&mut self, line: std::fmt::Arguments<'_>) {
        // Writing to a string cannot fail.
        let _ = writeln!(self.text, "{line}");
        self.lines += 1;
    }

    fn is_full(&self) -> bool {
        self.lines >= MOST_LINES
    }

    fn found(&mut self, founder: usize) {
        self.line(format_args!("{founder}"));
        self.seated.push(founder);
        self.next_new = founder + 1;
    }

    fn anybody(&mut self) -> usize {
        *self.random.pick(&self.seated)
    }

    fn add(&mut self, committer: usize, newcomer: usize) {
        self.line(format_args!("add {committer} {newcomer}"));
        let allowed = self.seated.contains(&committer)
            && !self.seated.contains(&newcomer)
            && newcomer < 65535
            && self.seated.len() < MOST_MEMBERS;
        if allowed {
            self.seated.push(newcomer);
        }
    }

    fn add_new(&mut self) {
        let committer = self.anybody();
        let newcomer = self.next_new;
        self.next_new += 1;
        self.add(committer, newcomer);
    }

    fn renew(&mut self, committer: usize) {
        self.line(format_args!("renew {committer}"));
    }

    fn remove(&mut self, committer: usize, member: usize) {
        self.line(format_args!("remove {committer} {member}"));
        if committer != member && self.seated.contains(&committer) {
            self.seated.retain(|seated| *seated != member);
        }
    }

    fn read(&mut self, member: usize) {
        self.line(format_args!("read {member}"));
    }

    /// Any line over the numbers below `members`, allowed or not.
    fn any_line(&mut self, members: usize, reads: usize) {
        let seated = self.anybody();
        let other = self.random.below(members);
        let committer = if self.random.chance(90) {
            seated
        } else {
            self.random.below(members)
        };
        if self.random.chance(reads) {
            let reader = if self.random.chance(80) {
                seated
            } else {
                other
            };
            return self.read(reader);
        }
        match self.random.below(10) {
            0..=4 => self.add(committer, other),
            5 | 6 => self.renew(committer),
            _ => self.remove(committer, other),
        }
    }

    fn mixed(&mut self, fewest: usize, most: usize, members: usize, reads: usize) {
        let founder = self.random.below(members);
        self.found(founder);
        for _ in 0..self.random.between(fewest, most) {
            self.any_line(members, reads);
        }
    }

    fn growth(&mut self) {
        self.found(0);
        let most = *self.random.pick(&[64, 300, 1024, 1024]);
        let renewals = *self.random.pick(&[0, 10, 40]);
        while self.seated.len() < most && !self.is_full() {
            if self.random.chance(renewals) {
                let committer = self.anybody();
                self.renew(committer);
            }
            self.add_new();
        }
        self.add_new();
        for _ in 0..100 {
            let committer = self.anybody();
            self.renew(committer);
        }
        while self.seated.len() > 1 && self.lines + 4 < MOST_LINES {
            let committer = self.anybody();
            let member = self.anybody();
            self.remove(committer, member);
            if self.random.chance(renewals / 4) {
                self.add_new();
            }
            if self.random.chance(2) {
                self.read(committer);
            }
        }
    }

    /// Removals make room below keyed parents, and newcomers are unmerged there.
    fn churn(&mut self) {
        let founder = self.random.below(100);
        self.found(founder);
        let members = self.random.between(3, 70);
        for _ in 1..members {
            self.add_new();
        }
        for _ in 0..members {
            let committer = self.anybody();
            self.renew(committer);
        }
        for _ in 0..self.random.between(1, 6) {
            self.churn_round();
        }
    }

    fn churn_round(&mut self) {
        let leaving = self.random.below(self.seated.len());
        let few = self.random.between(1, 4).min(self.seated.len());
        // A few stay together as committers, so that most parents keep their keys.
        let committers: Vec<usize> = (0..few).map(|_| self.anybody()).collect();
        for _ in 0..leaving {
            let committer = *self.random.pick(&committers);
            let member = self.anybody();
            if !committers.contains(&member) {
                self.remove(committer, member);
            }
        }
        for _ in 0..self.random.between(0, 20) {
            let committer = self.anybody();
            self.renew(committer);
        }
        for _ in 0..leaving {
            let committer = *self.random.pick(&committers);
            let newcomer = self.next_new;
            self.next_new += 1;
            self.add(committer, newcomer);
            if self.random.chance(10) {
                self.read(newcomer);
            }
        }
    }

    fn readings(&mut self) {
        let members = self.random.between(2, 20);
        self.mixed(10, 120, members, 40);
    }

    fn committers(&mut self) {
        self.found(0);
        for _ in 0..self.random.between(1, 12) {
            self.add_new();
        }
        for _ in 0..self.random.between(3, 30) {
            let committer = self.anybody();
            let other = self.anybody();
            if self.random.chance(30) {
                self.read(committer);
            }
            match self.random.below(6) {
                0 => {
                    let newcomer = self.next_new;
                    self.next_new += 1;
                    self.add(committer, newcomer);
                }
                1 => self.remove(committer, other),
                _ => self.renew(committer),
            }
            if self.random.chance(30) {
                self.read(committer);
            }
            if self.random.chance(30) {
                let next = self.anybody();
                self.renew(next);
                self.read(committer);
            }
        }
    }

    fn malformed(mut self) -> Vec<u8> {
        self.mixed(3, 40, 8, 10);
        let mut lines: Vec<Vec<u8>> = self
            .text
            .lines()
            .map(|line| line.as_bytes().to_vec())
            .collect();
        let spoil_founder = self.random.chance(10);
        for (place, line) in lines.iter_mut().enumerate() {
            if self.random.chance(30) && (place > 0 || spoil_founder) {
                spoil_line(line, &mut self.random);
            }
        }
        let mut bytes = lines.join(&b'\n');
        if self.random.chance(60) {
            bytes.push(b'\n');
        }
        if self.random.chance(10) {
            bytes.push(b'\n');
        }
        bytes
    }

    fn numbers(mut self) -> Vec<u8> {
        let founder = if self.random.chance(70) {
            *self.random.pick(&["0", "1", "9", "10", "65533", "65534"])
        } else {
            edge_number(&mut self.random)
        };
        let mut text = format!("{founder}\n");
        for _ in 0..self.random.between(1, 30) {
            let first = if self.random.chance(70) {
                founder
            } else {
                edge_number(&mut self.random)
            };
            let second = edge_number(&mut self.random);
            let _ = match self.random.below(8) {
                0..=3 => writeln!(text, "add {first} {second}"),
                4 => writeln!(text, "renew {first}"),
                5 => writeln!(text, "read {first}"),
                6 => writeln!(text, "remove {first} {second}"),
                _ => writeln!(text, "remove {second} {first}"),
            };
        }
        text.into_bytes()
    }

    fn long(mut self) -> Vec<u8> {
        let lines = self.random.between(MOST_LINES - 2, MOST_LINES + 2);
        let fillers = [
            "",
            "renew 3",
            "renew 4",
            "add 3 4",
            "remove 3 4",
            "x",
            "read 3",
        ];
        let mut all = vec!["3"];
        while all.len() < lines {
            all.push(fillers[self.random.below(fillers.len())]);
        }
        let mut text = all.join("\n");
        if self.random.chance(50) {
            text.push('\n');
        }
        text.into_bytes()
    }
}

fn edge_number(random: &mut Random) -> &'static str {
    const EDGES: [&str; 39] = [
        "0",
        "1",
        "9",
        "10",
        "99",
        "255",
        "256",
        "65533",
        "65534",
        "65534",
        "65535",
        "65536",
        "65537",
        "70000",
        "99999",
        "100000",
        "131072",
        "4294967295",
        "4294967296",
        "18446744073709551616",
        "00",
        "01",
        "007",
        "+1",
        "-1",
        "-0",
        "+0",
        "0x1",
        "1.0",
        "1e3",
        "",
        " ",
        " 1",
        "1 ",
        "1\r",
        "1\t",
        "\u{661}",
        "\0",
        "65535 ",
    ];
    EDGES[random.below(EDGES.len())]
}

fn spoil_line(line: &mut Vec<u8>, random: &mut Random) {
    match random.below(12) {
        0 => line.clear(),
        1 => line.push(b'\r'),
        2 => line.push(b' '),
        3 => line.insert(0, b' '),
        4 => {
            if let Some(space) = line.iter().position(|&byte| byte == b' ') {
                line.insert(space, b' ');
            }
        }
        5 => line.extend(b" 1"),
        6 => line.make_ascii_uppercase(),
        7 => line.truncate(random.below(line.len() + 1)),
        8 => {
            if !line.is_empty() {
                let place = random.below(line.len());
                line[place] = random.below(256) as u8;
            }
        }
        9 => {
            let place = random.below(line.len() + 1);
            line.insert(place, random.below(256) as u8);
        }
        10 => {
            *line = (0..random.below(40))
                .map(|_| random.below(256) as u8)
                .collect();
        }
        _ => {
            if let Some(space) = line.iter().position(|&byte| byte == b' ') {
                line[space] = *random.pick(b"\t,0_\0");
            }
        }
    }
}

#[cfg(test)]
mod tests {
    use super::*;

    #[test]
    fn the_same_seed_gives_the_same_script() {
        for (_, kind) in Kind::ALL {
            assert_eq!(script(7, kind), script(7, kind));
        }
        assert_ne!(script(7, Kind::Small), script(8, Kind::Small));
    }

    #[test]
    fn growth_reaches_the_largest_group_and_stays_within_the_lines() {
        for seed in 0..8 {
            let lines = script(seed, Kind::Growth);
            assert!(lines.iter().filter(|&&byte| byte == b'\n').count() <= MOST_LINES);
        }
    }
}
