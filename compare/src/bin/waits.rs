//! Prints the waits of the card in a slot, worked out from the listing on standard input.

use compare::{table, waiting};
use std::ffi::OsString;
use std::io::{self, Read, Write};
use std::process::ExitCode;
use std::{env, fs};

fn rows(arguments: &[OsString]) -> Result<String, String> {
    let [slot, path] = arguments else {
        return Err("usage: waits SLOT rack.tab < listing".to_string());
    };
    let slot = slot
        .to_str()
        .and_then(|digits| digits.parse().ok())
        .ok_or_else(|| format!("{slot:?} is no slot"))?;
    let file = fs::read(path).map_err(|error| format!("{path:?}: {error}"))?;
    let table =
        table::load(&file).map_err(|refusal| format!("{path:?} is refused with {refusal}"))?;
    let mut listing = Vec::new();
    io::stdin()
        .read_to_end(&mut listing)
        .map_err(|error| format!("the listing: {error}"))?;
    waiting::rows(slot, &table, &listing)
}

fn print(rows: &str) -> Result<(), String> {
    io::stdout()
        .write_all(rows.as_bytes())
        .map_err(|error| format!("the rows: {error}"))
}

fn main() -> ExitCode {
    let arguments: Vec<OsString> = env::args_os().skip(1).collect();
    match rows(&arguments).and_then(|rows| print(&rows)) {
        Ok(()) => ExitCode::SUCCESS,
        Err(what) => {
            eprintln!("waits: {what}");
            ExitCode::FAILURE
        }
    }
}
