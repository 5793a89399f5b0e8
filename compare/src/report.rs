//! Counts named tests and prints each failure with the one command that repeats it.

use std::process::ExitCode;

#[derive(Default)]
pub struct Report {
    passed: u32,
    failed: u32,
}

impl Report {
    pub fn new() -> Report {
        Report::default()
    }

    /// One named test with what went wrong, if anything did.
    pub fn test(&mut self, name: &str, outcome: Result<(), String>, repeat: &str) {
        match outcome {
            Ok(()) => self.passed += 1,
            Err(what) => {
                self.failed += 1;
                println!("FAILED {name}: {what}");
                println!("  repeat: {repeat}");
            }
        }
    }

    /// Prints the last line and gives the exit status: good only if something passed
    /// and nothing failed.
    pub fn finish(self) -> ExitCode {
        println!("{} passed, {} failed", self.passed, self.failed);
        if self.failed == 0 && self.passed > 0 {
            ExitCode::SUCCESS
        } else {
            ExitCode::FAILURE
        }
    }
}
