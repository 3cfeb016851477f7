//! `station`: plays a script from standard input and prints the tree after every commit.

use std::process::ExitCode;

use reference::{call, station};

const HELP: &str = "\
station: plays a script of commits, read on standard input

The first line is the founder's number; then add M N, renew M or remove M N, a line each.
For each of these it prints the epoch, the boxes, the node keys and the tree, or the number of
the refusal. The rules are in docs/RULES.md.
";

fn main() -> ExitCode {
    match call::arguments().as_deref() {
        Some([]) => match call::read_input() {
            Ok(input) => call::write_output("station", &station::play(&input)),
            Err(error) => call::bad_call("station", &format!("cannot read: {error}")),
        },
        Some(arguments) if call::is_help(arguments) => {
            call::write_output("station", HELP.as_bytes())
        }
        Some(_) => call::bad_call("station", "takes no arguments; see station --help"),
        None => call::bad_call("station", "an argument is not UTF-8"),
    }
}
