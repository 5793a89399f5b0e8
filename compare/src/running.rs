//! A program of the product that is fed and heard over pipes, piece by piece.
//!
//! Nothing here waits for ever: a program that doesn't answer or doesn't end in time is an error.

use std::fs;
use std::io::{ErrorKind, Read, Write};
use std::path::Path;
use std::process::{Child, ChildStdin, ChildStdout, Command, Stdio};
use std::sync::mpsc::{channel, Receiver, RecvTimeoutError};
use std::thread::{self, JoinHandle};
use std::time::{Duration, Instant};

const TIME_FOR_AN_ANSWER: Duration = Duration::from_secs(10);
const TIME_FOR_A_RUN: Duration = Duration::from_secs(30);

fn launch(program: &str, arguments: &[&str], folder: &Path) -> Result<Child, String> {
    let path = fs::canonicalize(program).map_err(|error| format!("{program}: {error}"))?;
    Command::new(path)
        .args(arguments)
        .current_dir(folder)
        .stdin(Stdio::piped())
        .stdout(Stdio::piped())
        .spawn()
        .map_err(|error| format!("{program} did not start: {error}"))
}

/// Passes on whatever the program prints, as it comes; the channel closes at its end.
fn listen(mut output: ChildStdout) -> Receiver<Vec<u8>> {
    let (sender, receiver) = channel();
    thread::spawn(move || {
        let mut chunk = [0; 65536];
        while let Ok(length) = output.read(&mut chunk) {
            if length == 0 || sender.send(chunk[..length].to_vec()).is_err() {
                return;
            }
        }
    });
    receiver
}

pub struct Running {
    child: Child,
    input: Option<ChildStdin>,
    output: Receiver<Vec<u8>>,
    heard: Vec<u8>,
}

impl Running {
    pub fn start(program: &str, arguments: &[&str], folder: &Path) -> Result<Running, String> {
        let mut child = launch(program, arguments, folder)?;
        let output = listen(child.stdout.take().expect("the output is piped"));
        Ok(Running {
            input: child.stdin.take(),
            output,
            heard: Vec::new(),
            child,
        })
    }

    /// Writes bytes. A program that has ended no longer reads, which is no error.
    pub fn send(&mut self, bytes: &[u8]) -> Result<(), String> {
        let input = self
            .input
            .as_mut()
            .expect("the input is open until the end");
        write_all(input, bytes)
    }

    /// Waits for the next so many bytes.
    pub fn answer(&mut self, length: usize) -> Result<Vec<u8>, String> {
        let deadline = Instant::now() + TIME_FOR_AN_ANSWER;
        while self.heard.len() < length {
            match self.hear(deadline)? {
                Some(bytes) => self.heard.extend(bytes),
                None => return Err("the program ended without an answer".to_string()),
            }
        }
        let rest = self.heard.split_off(length);
        Ok(std::mem::replace(&mut self.heard, rest))
    }

    /// The program ends while its input is still open, and prints nothing more.
    pub fn ends_by_itself(&mut self) -> Result<(), String> {
        match self.hear(Instant::now() + TIME_FOR_AN_ANSWER) {
            Ok(None) if self.heard.is_empty() => Ok(()),
            Ok(_) => Err("the program printed more than its last line".to_string()),
            Err(what) => Err(format!(
                "the program doesn't end after its last line: {what}"
            )),
        }
    }

    /// Ends the input and gives what was not yet heard.
    pub fn finish(mut self) -> Result<Vec<u8>, String> {
        self.input = None;
        let deadline = Instant::now() + TIME_FOR_A_RUN;
        while let Some(bytes) = self.hear(deadline)? {
            self.heard.extend(bytes);
        }
        let status = self.child.wait().map_err(|error| error.to_string())?;
        if status.code().is_none() {
            return Err(format!("the program was stopped: {status}"));
        }
        Ok(std::mem::take(&mut self.heard))
    }

    /// Gives the program its whole input, which is written beside the reading, so that neither
    /// pipe blocks.
    pub fn feed(mut self, bytes: &[u8]) -> Fed {
        let mut input = self.input.take().expect("the input is piped");
        let bytes = bytes.to_vec();
        Fed {
            program: self,
            writer: thread::spawn(move || write_all(&mut input, &bytes)),
        }
    }

    /// The next piece of output, or nothing at its end.
    fn hear(&self, deadline: Instant) -> Result<Option<Vec<u8>>, String> {
        let left = deadline.saturating_duration_since(Instant::now());
        match self.output.recv_timeout(left) {
            Ok(bytes) => Ok(Some(bytes)),
            Err(RecvTimeoutError::Disconnected) => Ok(None),
            Err(RecvTimeoutError::Timeout) => Err("no answer in time".to_string()),
        }
    }
}

/// A program that has its whole input and runs beside its caller.
pub struct Fed {
    program: Running,
    writer: JoinHandle<Result<(), String>>,
}

impl Fed {
    /// All that the program prints.
    pub fn printed(self) -> Result<Vec<u8>, String> {
        let printed = self.program.finish()?;
        self.writer.join().expect("the writer doesn't panic")?;
        Ok(printed)
    }
}

impl Drop for Running {
    fn drop(&mut self) {
        // After `finish` both only say that the program has ended.
        let _ = self.child.kill();
        let _ = self.child.wait();
    }
}

fn write_all(input: &mut ChildStdin, bytes: &[u8]) -> Result<(), String> {
    match input.write_all(bytes) {
        Err(error) if error.kind() != ErrorKind::BrokenPipe => Err(error.to_string()),
        _ => Ok(()),
    }
}
