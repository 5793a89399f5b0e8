//! The reference behind the same records that the product's `rackstate` takes and gives.

use crate::next_winner::next_winner;
use crate::rack::{Bus, Event, Outcome, Rack};
use crate::table::{self, Table};

/// k, the rule, five arrays by number, the last winner, three bytes for the bus, two for the kept
/// value of the lines, and one for how many cards wait.
pub const STATE: usize = 2 + 5 * 64 + 4 + 2 + 1;
/// A state, a letter and a number.
pub const RECORD: usize = STATE + 2;
/// A state, five bytes about what became of it, and the copies; after a save the lent bytes follow.
pub const ANSWER: usize = STATE + 6;
/// Where an answer has the copies.
pub const COPIES: usize = ANSWER - 1;

const LENT: u8 = 0xee;

/// What is asked of a state: an event by its letter, S for a save to so many bytes, N for how many
/// cards wait, or W for who is next.
#[derive(Clone, Copy, Debug, PartialEq, Eq)]
pub struct Ask {
    pub letter: u8,
    pub number: u8,
}

fn numbers(bytes: &[u8]) -> [u8; 64] {
    bytes.try_into().expect("64 bytes")
}

/// Anything but 0 is yes.
fn set(bytes: &[u8]) -> [bool; 64] {
    numbers(bytes).map(|byte| byte != 0)
}

/// The state at the front of a record.
pub fn rack(bytes: &[u8]) -> Rack {
    let (slots, bytes_after) = bytes[2..].split_at(64);
    let (waiting, bytes_after) = bytes_after.split_at(64);
    let (counts, bytes_after) = bytes_after.split_at(64);
    let (batch, bytes_after) = bytes_after.split_at(64);
    let (inhibited, bytes_after) = bytes_after.split_at(64);
    Rack {
        table: Table {
            k: bytes[0],
            rule: bytes[1],
            slots: numbers(slots),
        },
        waiting: set(waiting),
        counts: numbers(counts),
        batch: set(batch),
        inhibited: set(inhibited),
        last_winner: bytes_after[0],
        bus: bus(&bytes_after[1..4]),
        kept: u16::from_le_bytes([bytes_after[4], bytes_after[5]]),
        waiters: bytes_after[6],
    }
}

/// Which bus it is, its holder, and the elected card. What the bus doesn't have is passed over.
fn bus(bytes: &[u8]) -> Bus {
    match bytes[0] {
        0 => Bus::Free,
        1 => Bus::Held(bytes[1]),
        _ => Bus::Followed {
            holder: bytes[1],
            elected: bytes[2],
        },
    }
}

fn bus_bytes(bus: Bus) -> [u8; 3] {
    match bus {
        Bus::Free => [0, 0, 0],
        Bus::Held(holder) => [1, holder, 0],
        Bus::Followed { holder, elected } => [2, holder, elected],
    }
}

fn state_bytes(rack: &Rack) -> Vec<u8> {
    let mut bytes = vec![rack.table.k, rack.table.rule];
    bytes.extend(rack.table.slots);
    bytes.extend(rack.waiting.map(u8::from));
    bytes.extend(rack.counts);
    bytes.extend(rack.batch.map(u8::from));
    bytes.extend(rack.inhibited.map(u8::from));
    bytes.push(rack.last_winner);
    bytes.extend(bus_bytes(rack.bus));
    bytes.extend(rack.kept.to_le_bytes());
    bytes.push(rack.waiters);
    bytes
}

pub fn record(rack: &Rack, ask: Ask) -> Vec<u8> {
    [state_bytes(rack), vec![ask.letter, ask.number]].concat()
}

/// What a record asks.
pub fn ask(record: &[u8]) -> Ask {
    Ask {
        letter: record[STATE],
        number: record[STATE + 1],
    }
}

/// How long the answer to a record is.
pub fn answer_length(record: &[u8]) -> usize {
    match ask(record) {
        Ask {
            letter: b'S',
            number,
        } => ANSWER + usize::from(number),
        _ => ANSWER,
    }
}

/// The number of the screen in an answer.
pub fn number_of(answer: &[u8]) -> u32 {
    u32::from(answer[STATE])
}

/// The whole answer to a record.
pub fn answer(record: &[u8]) -> Vec<u8> {
    let rack = rack(record);
    match ask(record) {
        Ask {
            letter: b'S',
            number,
        } => save(&rack, usize::from(number)),
        Ask { letter: b'N', .. } => told(&rack, rack.waiting_count()),
        Ask { letter: b'W', .. } => told(&rack, next_winner(&rack)),
        ask => event(&rack, ask),
    }
}

/// The answer to a question, which changes nothing.
fn told(rack: &Rack, what: Result<u8, u32>) -> Vec<u8> {
    let (number, told) = match what {
        Ok(told) => (0, told),
        Err(refusal) => (refusal as u8, 0),
    };
    [state_bytes(rack), vec![number, told, 0, 0, 0, 0]].concat()
}

fn event(rack: &Rack, ask: Ask) -> Vec<u8> {
    let after = match ask.letter {
        b'Q' => rack.after(Event::Request(ask.number)),
        b'A' => rack.after(Event::Arbitrate),
        b'R' => rack.after(Event::Release(ask.number)),
        _ => Err(18),
    };
    let (next, number, outcome) = match after {
        Ok((next, outcome)) => (next, 0, outcome),
        Err(refusal) => (*rack, refusal as u8, Outcome::default()),
    };
    let [low, high] = outcome.lines.to_le_bytes();
    let Outcome {
        winner,
        stages,
        copies,
        ..
    } = outcome;
    let report = vec![number, winner, low, high, stages, copies];
    [state_bytes(&next), report].concat()
}

fn save(rack: &Rack, lent: usize) -> Vec<u8> {
    let mut buffer = vec![LENT; lent];
    let (number, length) = match table::save(rack, &mut buffer) {
        Ok(length) => (0, length as u16),
        Err(refusal) => (refusal as u8, 0),
    };
    let [low, high] = length.to_le_bytes();
    let report = vec![number, low, high, 0, 0, 0];
    [state_bytes(rack), report, buffer].concat()
}
