//! Drives the product's `racktrace`, each time in a folder of its own.

use crate::folder::Folder;
use crate::listing::LISTING_LINE;
use crate::run::Run;
use crate::running::Running;

const PROGRAM: &str = "target/bin/racktrace";

/// A running `racktrace` that is fed and heard line by line.
pub struct Session {
    program: Running,
    _folder: Folder,
}

impl Session {
    pub fn start(table: Option<&[u8]>) -> Result<Session, String> {
        let folder = Folder::with(table)?;
        Ok(Session {
            program: Running::start(PROGRAM, &[], folder.path())?,
            _folder: folder,
        })
    }

    /// Writes bytes. A program that has ended no longer reads, which is no error.
    pub fn send(&mut self, bytes: &[u8]) -> Result<(), String> {
        self.program.send(bytes)
    }

    /// Waits for the next listing line.
    pub fn answer(&mut self) -> Result<[u8; LISTING_LINE], String> {
        let line = self.program.answer(LISTING_LINE)?;
        Ok(line.try_into().expect("a whole line was heard"))
    }

    /// The program ends while its input is still open, and prints nothing more.
    pub fn ends_by_itself(&mut self) -> Result<(), String> {
        self.program.ends_by_itself()
    }

    /// Ends the trace and gives what was not yet heard.
    pub fn finish(self) -> Result<Vec<u8>, String> {
        self.program.finish()
    }
}

/// Begins a run on a whole trace.
pub fn begin(table: Option<&[u8]>, trace: &[u8]) -> Result<Run, String> {
    Run::begin(PROGRAM, &[], Folder::with(table)?, trace)
}

/// The whole output of one run.
pub fn run(table: Option<&[u8]>, trace: &[u8]) -> Result<Vec<u8>, String> {
    begin(table, trace)?.printed()
}

/// The whole output where `rack.tab` can't be read.
pub fn run_with_unreadable_table(trace: &[u8]) -> Result<Vec<u8>, String> {
    Run::begin(PROGRAM, &[], Folder::with_unreadable_table()?, trace)?.printed()
}
