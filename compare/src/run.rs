//! A whole run of a program of the product in a folder of its own. It goes on beside its caller, so
//! that the reference works out meanwhile what it should print.

use crate::folder::Folder;
use crate::running::{Fed, Running};

pub struct Run {
    program: Fed,
    _folder: Folder,
}

impl Run {
    pub fn begin(
        program: &str,
        arguments: &[&str],
        folder: Folder,
        input: &[u8],
    ) -> Result<Run, String> {
        let running = Running::start(program, arguments, folder.path())?;
        Ok(Run {
            program: running.feed(input),
            _folder: folder,
        })
    }

    /// All that the program prints.
    pub fn printed(self) -> Result<Vec<u8>, String> {
        self.program.printed()
    }
}
