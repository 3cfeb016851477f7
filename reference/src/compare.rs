//! The comparison: a verified program and this library on the same input.

use std::collections::{BTreeMap, BTreeSet};
use std::fmt;
use std::fs::{self, File};
use std::io;
use std::path::{Path, PathBuf};
use std::process::{Command, Output, Stdio};

use crate::calls;
use crate::cases::{self, Case, Run};
use crate::drill::{self, Files};
use crate::generate::{script, Kind};
use crate::handset;
use crate::random::Random;
use crate::station;

#[derive(Clone, Copy, Debug, PartialEq, Eq)]
pub enum Program {
    Station,
    Drill,
    Handset,
}

impl Program {
    pub fn named(name: &str) -> Option<Program> {
        match name {
            "station" => Some(Program::Station),
            "drill" => Some(Program::Drill),
            "handset" => Some(Program::Handset),
            _ => None,
        }
    }
}

/// The first difference: what was played, and what each program said to it.
pub struct Difference {
    pub what: String,
    pub script: Vec<u8>,
    pub verified: String,
    pub reference: String,
}

impl fmt::Display for Difference {
    fn fmt(&self, f: &mut fmt::Formatter<'_>) -> fmt::Result {
        writeln!(f, "difference: {}", self.what)?;
        writeln!(f, "script:")?;
        f.write_str(&shown(&self.script))?;
        writeln!(f, "verified:  {}", self.verified)?;
        write!(f, "reference: {}", self.reference)
    }
}

/// Bytes as text, line by line, with whatever is not plain ASCII escaped.
fn shown(bytes: &[u8]) -> String {
    bytes
        .split_inclusive(|&byte| byte == b'\n')
        .map(|line| {
            let (line, end) = match line.split_last() {
                Some((b'\n', line)) => (line, ""),
                _ => (line, " (no newline)"),
            };
            format!("    {}{end}\n", line.escape_ascii())
        })
        .collect()
}

/// A folder of this process alone, removed at the end.
struct Folder(PathBuf);

impl Folder {
    fn new() -> io::Result<Folder> {
        let path = std::env::temp_dir().join(format!("compare-{}", std::process::id()));
        fs::create_dir_all(&path)?;
        Ok(Folder(path))
    }
}

impl Drop for Folder {
    fn drop(&mut self) {
        // What cannot be removed stays in the folder for temporary files; nothing depends on it.
        let _ = fs::remove_dir_all(&self.0);
    }
}

/// Compares on `count` scripts. Gives the first difference, if there is one.
pub fn run(
    program: Program,
    count: usize,
    seed: u64,
    binary: &Path,
) -> io::Result<Option<Difference>> {
    if let Some(what) = calls::first_wrong(program, binary)? {
        return Ok(Some(Difference {
            what,
            script: Vec::new(),
            verified: "as above".into(),
            reference: "as the rules say".into(),
        }));
    }
    let folder = Folder::new()?;
    for turn in 0..count {
        let kind = Kind::of_turn(turn);
        let played = script(seed.wrapping_add(turn as u64), kind);
        let found = match program {
            Program::Station => compare_station(binary, &folder.0, &played)?,
            Program::Drill => compare_drill(binary, &folder.0, &played, turn)?,
            Program::Handset => compare_handset(binary, &folder.0, &played, seed, turn)?,
        };
        if let Some(found) = found {
            let what = format!("{} (turn {turn}, seed {seed}, {})", found.what, kind.name());
            return Ok(Some(Difference {
                what,
                script: played,
                verified: found.verified,
                reference: found.reference,
            }));
        }
    }
    Ok(None)
}

/// What differs, and what each program has there.
struct Found {
    what: String,
    verified: String,
    reference: String,
}

fn compare_station(binary: &Path, folder: &Path, played: &[u8]) -> io::Result<Option<Found>> {
    let output = run_on(Command::new(binary), folder, played)?;
    Ok(compare_output(&output, &station::play(played)))
}

/// Standard input is a file: a program may print before it has read everything.
fn run_on(mut command: Command, folder: &Path, input: &[u8]) -> io::Result<Output> {
    let path = folder.join("input");
    fs::write(&path, input)?;
    command.stdin(Stdio::from(File::open(&path)?)).output()
}

fn compare_output(output: &Output, reference: &[u8]) -> Option<Found> {
    if !output.status.success() {
        let error = String::from_utf8_lossy(&output.stderr).into_owned();
        let verified = format!("{}, {error}", output.status);
        return Some(Found {
            what: "the program failed".into(),
            verified,
            reference: "status 0".into(),
        });
    }
    if output.stdout == reference {
        return None;
    }
    let verified: Vec<&[u8]> = output.stdout.split(|&byte| byte == b'\n').collect();
    let reference: Vec<&[u8]> = reference.split(|&byte| byte == b'\n').collect();
    let line = verified
        .iter()
        .zip(&reference)
        .position(|(a, b)| a != b)
        .unwrap_or(verified.len().min(reference.len()));
    let line_of = |lines: &[&[u8]]| match lines.get(line) {
        Some(text) => text.escape_ascii().to_string(),
        None => "(ends before)".into(),
    };
    Some(Found {
        what: format!("line {} of the output", line + 1),
        verified: line_of(&verified),
        reference: line_of(&reference),
    })
}

/// Files are compared for scripts up to this size: larger ones write hundreds of megabytes.
const MOST_BYTES_WITH_FILES: usize = 4000;

/// Every other small script is played with a folder, and the files are compared too.
fn compare_drill(
    binary: &Path,
    folder: &Path,
    played: &[u8],
    turn: usize,
) -> io::Result<Option<Found>> {
    if turn % 2 == 1 || played.len() > MOST_BYTES_WITH_FILES {
        let output = run_on(Command::new(binary), folder, played)?;
        return Ok(compare_output(
            &output,
            &drill::play(played, &mut Files::None)?,
        ));
    }
    let written = folder.join("drill");
    fs::create_dir(&written)?;
    let mut command = Command::new(binary);
    command.arg(&written);
    let output = run_on(command, folder, played)?;
    let mut kept = Files::Memory(BTreeMap::new());
    let mut found = compare_output(&output, &drill::play(played, &mut kept)?);
    if let (None, Files::Memory(kept)) = (&found, kept) {
        found = compare_files(&written, &kept)?;
    }
    fs::remove_dir_all(&written)?;
    Ok(found)
}

fn compare_files(folder: &Path, kept: &BTreeMap<String, Vec<u8>>) -> io::Result<Option<Found>> {
    let mut names: BTreeSet<String> = kept.keys().cloned().collect();
    for entry in fs::read_dir(folder)? {
        names.insert(entry?.file_name().to_string_lossy().into_owned());
    }
    for name in names {
        let verified = fs::read(folder.join(&name)).ok();
        let reference = kept.get(&name);
        if verified.as_ref() != reference {
            return Ok(Some(Found {
                what: format!("the file {name}"),
                verified: shown_file(verified.as_deref()),
                reference: shown_file(reference.map(Vec::as_slice)),
            }));
        }
    }
    Ok(None)
}

fn shown_file(bytes: Option<&[u8]>) -> String {
    match bytes {
        None => "(no such file)".into(),
        Some(bytes) => bytes.iter().map(|byte| format!("{byte:02x}")).collect(),
    }
}

fn compare_handset(
    binary: &Path,
    folder: &Path,
    played: &[u8],
    seed: u64,
    turn: usize,
) -> io::Result<Option<Found>> {
    let mut random = Random::new(seed.wrapping_mul(31).wrapping_add(turn as u64));
    let mut all = match turn {
        0 => cases::exhaustive_cases()?,
        _ => Vec::new(),
    };
    // The files of the largest groups would fill hundreds of megabytes.
    if played.len() <= MOST_BYTES_WITH_FILES {
        all.extend(cases::cases(&Run::of(played)?, &mut random));
    }
    for case in all {
        if let Some(found) = compare_case(binary, folder, &case)? {
            return Ok(Some(found));
        }
    }
    Ok(None)
}

fn compare_case(binary: &Path, folder: &Path, case: &Case) -> io::Result<Option<Found>> {
    let mut command = Command::new(binary);
    command.arg(&case.member);
    for path in write_case(folder, case)? {
        command.arg(path);
    }
    let output = run_on(command, folder, b"")?;
    let messages = case.messages.iter().map(Vec::as_slice);
    let reference = handset::play(case.member.as_bytes(), &case.tree, messages);
    let Some(mut found) = compare_output(&output, &reference) else {
        return Ok(None);
    };
    let shown = Path::new(DIFFERENCE);
    fs::create_dir_all(shown)?;
    write_case(shown, case)?;
    found.what = format!(
        "{}, {}, handset {:?} with the files in {DIFFERENCE}: tree, then message-0 to message-{}",
        found.what,
        case.what,
        case.member,
        case.messages.len().saturating_sub(1)
    );
    Ok(Some(found))
}

/// Where the files of a call that shows a difference are left.
const DIFFERENCE: &str = "reference/target/difference";

/// Writes the files of a call; gives their paths in the order of the arguments.
fn write_case(folder: &Path, case: &Case) -> io::Result<Vec<PathBuf>> {
    let tree = folder.join("tree");
    fs::write(&tree, &case.tree)?;
    let mut paths = vec![tree];
    for (number, message) in case.messages.iter().enumerate() {
        let path = folder.join(format!("message-{number}"));
        fs::write(&path, message)?;
        paths.push(path);
    }
    Ok(paths)
}
