//! Trace lines and the listing that answers them.

use crate::rack::{Event, Outcome, Rack};

pub const TRACE_LINE: usize = 5;
pub const LISTING_LINE: usize = 22;

/// The event of a trace line, or nothing if the line is malformed or incomplete.
pub fn event(line: &[u8]) -> Option<Event> {
    let &[letter, b' ', tens, units, b'\n'] = line else {
        return None;
    };
    if !tens.is_ascii_digit() || !units.is_ascii_digit() {
        return None;
    }
    let number = 10 * (tens - b'0') + (units - b'0');
    match (letter, number) {
        (b'Q', _) => Some(Event::Request(number)),
        (b'A', 0) => Some(Event::Arbitrate),
        (b'R', _) => Some(Event::Release(number)),
        _ => None,
    }
}

fn listing_line(first: &[u8], answer: u32, outcome: Outcome) -> Vec<u8> {
    let Outcome {
        winner,
        lines,
        stages,
        copies,
    } = outcome;
    let fields = format!(" {answer:02} {winner:02} {lines:04} {stages:02} {copies:02}\n");
    [first, fields.as_bytes()].concat()
}

/// A rack that answers trace lines until one is malformed.
pub struct Session {
    rack: Rack,
    ended: bool,
}

impl Session {
    /// The session of a table file (nothing if it can't be opened) and what it prints at once.
    pub fn start(file: Option<&[u8]>) -> (Session, Vec<u8>) {
        let (rack, refusal) = Rack::load(file.unwrap_or(&[]));
        let ended = refusal != 0;
        let printed = if ended {
            listing_line(b"tab.", refusal, Outcome::default())
        } else {
            Vec::new()
        };
        (Session { rack, ended }, printed)
    }

    pub fn rack(&self) -> &Rack {
        &self.rack
    }

    pub fn has_ended(&self) -> bool {
        self.ended
    }

    /// What the program prints for the next five bytes, or for fewer at the trace's end.
    pub fn answer(&mut self, line: &[u8]) -> Vec<u8> {
        if self.ended {
            return Vec::new();
        }
        let Some(event) = event(line) else {
            self.ended = true;
            return listing_line(b"----", 18, Outcome::default());
        };
        match self.rack.after(event) {
            Ok((next, outcome)) => {
                self.rack = next;
                listing_line(&line[..4], 0, outcome)
            }
            Err(refusal) => listing_line(&line[..4], refusal, Outcome::default()),
        }
    }
}

/// The whole listing of a table file and a trace.
pub fn listing(file: Option<&[u8]>, trace: &[u8]) -> Vec<u8> {
    let (mut session, mut printed) = Session::start(file);
    for line in trace.chunks(TRACE_LINE) {
        printed.extend(session.answer(line));
    }
    printed
}
