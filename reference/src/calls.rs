//! Calls with arguments that a program answers by help or by an error, compared with the rules.

use std::ffi::OsStr;
use std::io;
use std::os::unix::ffi::OsStrExt;
use std::path::Path;
use std::process::{Command, Output, Stdio};

use crate::compare::Program;

#[derive(Clone, Copy, Debug, PartialEq, Eq)]
enum Expected {
    /// Text on standard output, status 0.
    Help,
    /// One line on standard error, nothing on standard output, status 1.
    BadCall,
    /// Nothing on standard output, status 1.
    Status1,
}

impl Expected {
    fn is_met(self, output: &Output) -> bool {
        let status = output.status.code();
        let error_lines = output.stderr.iter().filter(|&&byte| byte == b'\n').count();
        match self {
            Expected::Help => status == Some(0) && !output.stdout.is_empty(),
            Expected::BadCall => status == Some(1) && output.stdout.is_empty() && error_lines == 1,
            Expected::Status1 => status == Some(1) && output.stdout.is_empty(),
        }
    }
}

const NOT_UTF8: &[u8] = b"\xff";
const NO_FILE: &[u8] = b"no such folder/no such file";

fn calls(program: Program) -> Vec<(Vec<&'static [u8]>, Expected)> {
    let mut calls = vec![
        (vec![b"--help".as_slice()], Expected::Help),
        (vec![NOT_UTF8], Expected::Status1),
    ];
    let bad: &[&[&'static [u8]]] = match program {
        Program::Station => &[&[b"x"], &[b"x", b"y"]],
        Program::Drill => &[&[NO_FILE], &[NO_FILE, b"y"]],
        Program::Handset => &[&[], &[b"1"], &[b"1", NO_FILE], &[b"1", NO_FILE, NO_FILE]],
    };
    calls.extend(bad.iter().map(|call| (call.to_vec(), Expected::BadCall)));
    calls
}

/// The first call that is not answered as the rules say.
pub fn first_wrong(program: Program, binary: &Path) -> io::Result<Option<String>> {
    for (arguments, expected) in calls(program) {
        let output = Command::new(binary)
            .args(arguments.iter().map(|bytes| OsStr::from_bytes(bytes)))
            .stdin(Stdio::null())
            .output()?;
        if !expected.is_met(&output) {
            let shown: Vec<String> = arguments
                .iter()
                .map(|argument| format!("\"{}\"", argument.escape_ascii()))
                .collect();
            return Ok(Some(format!(
                "called with [{}]: expected {expected:?}, but {}, {} bytes of output, error {:?}",
                shown.join(", "),
                output.status,
                output.stdout.len(),
                String::from_utf8_lossy(&output.stderr),
            )));
        }
    }
    Ok(None)
}
