//! `generate SEED KIND`: a script for the comparison, on standard output.

use std::process::ExitCode;

use reference::call;
use reference::generate::{script, Kind};

fn main() -> ExitCode {
    let Some(arguments) = call::arguments() else {
        return call::bad_call("generate", "an argument is not UTF-8");
    };
    let names: Vec<&str> = Kind::ALL.iter().map(|(name, _)| *name).collect();
    let usage = format!("generate SEED KIND, with KIND one of {}", names.join(", "));
    if call::is_help(&arguments) {
        return call::write_output("generate", format!("{usage}\n").as_bytes());
    }
    let [seed, kind] = &arguments[..] else {
        return call::bad_call("generate", &usage);
    };
    match (seed.parse(), Kind::named(kind)) {
        (Ok(seed), Some(kind)) => call::write_output("generate", &script(seed, kind)),
        _ => call::bad_call("generate", &usage),
    }
}
