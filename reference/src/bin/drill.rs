//! `drill [DIR]`: plays a script from standard input with readings, and says which epochs lie open.

use std::path::Path;
use std::process::ExitCode;

use reference::call;
use reference::drill::{self, Files};

const HELP: &str = "\
drill [DIR]: plays a script of commits and readings, read on standard input

The first line is the founder's number; then add M N, renew M, remove M N or read M, a line each.
A refused line prints the number of the refusal. At the end there is a line for every epoch:
EPOCH open|shut known|unknown. With DIR the tree files and messages of the run are written into
that folder, as tree-E and letter-E. The rules are in docs/RULES.md.
";

fn main() -> ExitCode {
    let Some(arguments) = call::arguments() else {
        return call::bad_call("drill", "an argument is not UTF-8");
    };
    if call::is_help(&arguments) {
        return call::write_output("drill", HELP.as_bytes());
    }
    let files = match &arguments[..] {
        [] => Files::None,
        [folder] if Path::new(folder).is_dir() => Files::Folder(folder.into()),
        [folder] => return call::bad_call("drill", &format!("{folder}: no such folder")),
        _ => return call::bad_call("drill", "takes one folder at most; see drill --help"),
    };
    run(files)
}

fn run(mut files: Files) -> ExitCode {
    let printed = call::read_input().and_then(|input| drill::play(&input, &mut files));
    match printed {
        Ok(printed) => call::write_output("drill", &printed),
        Err(error) => call::bad_call("drill", &error.to_string()),
    }
}
