//! `handset MEMBER TREE MESSAGE..`: the orders of one member for messages, from a tree file on.

use std::fs;
use std::process::ExitCode;

use reference::{call, handset};

const HELP: &str = "\
handset MEMBER TREE MESSAGE..: the orders that a member gives its vault

Reads a tree file and then commit messages from files. For each message it prints the orders, one
to a line, and an empty line; or the number of the refusal and an empty line. The rules are in
docs/RULES.md.
";

fn main() -> ExitCode {
    let Some(arguments) = call::arguments() else {
        return call::bad_call("handset", "an argument is not UTF-8");
    };
    if call::is_help(&arguments) {
        return call::write_output("handset", HELP.as_bytes());
    }
    let [member, tree, messages @ ..] = &arguments[..] else {
        return call::bad_call("handset", "takes MEMBER TREE MESSAGE..; see handset --help");
    };
    match read_files(tree, messages) {
        Ok((tree, messages)) => {
            let messages = messages.iter().map(Vec::as_slice);
            let printed = handset::play(member.as_bytes(), &tree, messages);
            call::write_output("handset", &printed)
        }
        Err(error) => call::bad_call("handset", &error),
    }
}

type Files = (Vec<u8>, Vec<Vec<u8>>);

fn read_files(tree: &str, messages: &[String]) -> Result<Files, String> {
    let messages = messages.iter().map(|path| read_file(path));
    Ok((read_file(tree)?, messages.collect::<Result<_, _>>()?))
}

fn read_file(path: &str) -> Result<Vec<u8>, String> {
    fs::read(path).map_err(|error| format!("{path}: {error}"))
}
