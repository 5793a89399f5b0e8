//! Drives the product's `rackreport`, each time in a folder of its own.

use crate::folder::Folder;
use crate::run::Run;
use std::fs::{self, File};
use std::io::Seek;
use std::process::{Command, Output};

const PROGRAM: &str = "target/bin/rackreport";

fn arguments(with_square: bool) -> &'static [&'static str] {
    match with_square {
        true => &["square"],
        false => &[],
    }
}

/// Begins a run on a whole trace.
pub fn begin(table: Option<&[u8]>, trace: &[u8], with_square: bool) -> Result<Run, String> {
    Run::begin(PROGRAM, arguments(with_square), Folder::with(table)?, trace)
}

/// The whole output of one run.
pub fn run(table: Option<&[u8]>, trace: &[u8], with_square: bool) -> Result<Vec<u8>, String> {
    begin(table, trace, with_square)?.printed()
}

/// The whole output where `rack.tab` can't be read.
pub fn run_with_unreadable_table(trace: &[u8], with_square: bool) -> Result<Vec<u8>, String> {
    let folder = Folder::with_unreadable_table()?;
    Run::begin(PROGRAM, arguments(with_square), folder, trace)?.printed()
}

/// What a run with other arguments prints, and how many bytes of the trace it read. The trace is a
/// file here, since a file that is handed on tells afterwards how far it was read.
pub fn run_with(arguments: &[&str], table: &[u8], trace: &[u8]) -> Result<(Output, u64), String> {
    let folder = Folder::with(Some(table))?;
    let path = folder.path().join("trace");
    fs::write(&path, trace).map_err(|error| format!("no trace: {error}"))?;
    let program = fs::canonicalize(PROGRAM).map_err(|error| format!("{PROGRAM}: {error}"))?;
    let run = || {
        let mut input = File::open(&path)?;
        let output = Command::new(program)
            .args(arguments)
            .current_dir(folder.path())
            .stdin(input.try_clone()?)
            .output()?;
        Ok((output, input.stream_position()?))
    };
    run().map_err(|error: std::io::Error| format!("{PROGRAM} did not run: {error}"))
}
