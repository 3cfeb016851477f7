//! How the programs are called: arguments, help, standard input and output.

use std::io::{Read, Write};
use std::process::ExitCode;

/// The arguments behind the program's name, or nothing if one is not UTF-8.
pub fn arguments() -> Option<Vec<String>> {
    std::env::args_os()
        .skip(1)
        .map(|argument| argument.into_string().ok())
        .collect()
}

pub fn is_help(arguments: &[String]) -> bool {
    matches!(arguments, [only] if only == "--help")
}

/// A bad call: one line on standard error, and status 1.
pub fn bad_call(program: &str, what: &str) -> ExitCode {
    eprintln!("{program}: {what}");
    ExitCode::FAILURE
}

pub fn read_input() -> std::io::Result<Vec<u8>> {
    let mut input = Vec::new();
    std::io::stdin().lock().read_to_end(&mut input)?;
    Ok(input)
}

pub fn write_output(program: &str, bytes: &[u8]) -> ExitCode {
    let mut output = std::io::stdout().lock();
    match output.write_all(bytes).and_then(|()| output.flush()) {
        Ok(()) => ExitCode::SUCCESS,
        Err(error) => bad_call(program, &format!("cannot write: {error}")),
    }
}
