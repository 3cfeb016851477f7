//! `compare PROGRAM COUNT SEED BINARY`: plays generated input through a verified program and
//! through this library, and stops at the first difference. Called by `tests/compare`.

use std::process::ExitCode;

use reference::call;
use reference::compare::{self, Program};

const USAGE: &str = "compare station|drill|handset COUNT SEED BINARY";

fn main() -> ExitCode {
    let Some(arguments) = call::arguments() else {
        return call::bad_call("compare", "an argument is not UTF-8");
    };
    let [program, count, seed, binary] = &arguments[..] else {
        return call::bad_call("compare", USAGE);
    };
    let (Some(program), Ok(count), Ok(seed)) =
        (Program::named(program), count.parse(), seed.parse())
    else {
        return call::bad_call("compare", USAGE);
    };
    match compare::run(program, count, seed, binary.as_ref()) {
        Ok(None) => {
            println!("{count} scripts, no difference");
            ExitCode::SUCCESS
        }
        Ok(Some(difference)) => {
            println!("{difference}");
            ExitCode::FAILURE
        }
        Err(error) => call::bad_call("compare", &error.to_string()),
    }
}
