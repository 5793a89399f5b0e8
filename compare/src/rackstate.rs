//! Drives the product's `rackstate`. One running program answers the records of many cases.

use crate::running::Running;
use std::cell::RefCell;
use std::path::Path;
use std::rc::Rc;

const PROGRAM: &str = "target/bin/rackstate";

fn start() -> Result<Running, String> {
    Running::start(PROGRAM, &[], Path::new("."))
}

/// A running `rackstate` that several kinds of cases share. It starts when first asked.
#[derive(Clone, Default)]
pub struct Shared(Rc<RefCell<Option<Running>>>);

impl Shared {
    /// Sends records and waits for so many bytes of answers. What the caller does meanwhile is
    /// done while the program works.
    pub fn answers<T>(
        &self,
        records: &[u8],
        length: usize,
        meanwhile: impl FnOnce() -> T,
    ) -> Result<(Vec<u8>, T), String> {
        let mut running = match self.0.take() {
            Some(running) => running,
            None => start()?,
        };
        running.send(records)?;
        let done = meanwhile();
        let answers = running.answer(length)?;
        self.0.replace(Some(running));
        Ok((answers, done))
    }

    /// Ends the program, so that what a wrong answer left behind reaches no other case.
    pub fn end(&self) {
        self.0.take();
    }
}

/// A `rackstate` of its own, for a conversation.
pub fn alone() -> Result<Running, String> {
    start()
}

/// The whole output for this input.
pub fn run(records: &[u8]) -> Result<Vec<u8>, String> {
    start()?.feed(records).printed()
}
