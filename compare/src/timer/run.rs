//! A run of a rack from a fresh state, in which the stages of each arbitration are seen.

use compare::listing::event;
use compare::rack::Rack;

#[derive(Clone)]
pub struct Run {
    pub rack: Rack,
    pub trace: Vec<u8>,
    /// The most stages of any arbitration so far, and the state that it was made in.
    pub stages: u8,
    pub slowest: Rack,
}

impl Run {
    pub fn fresh(file: &[u8]) -> Run {
        let (rack, refusal) = Rack::load(file);
        assert_eq!(refusal, 0, "the tables of this program are sound");
        Run {
            rack,
            trace: Vec::new(),
            stages: 0,
            slowest: rack,
        }
    }

    /// A refused event leaves the rack as it is.
    pub fn push(&mut self, letter: char, number: u8) {
        let line = format!("{letter} {number:02}\n");
        self.trace.extend(line.as_bytes());
        let event = event(line.as_bytes()).expect("a made line is well formed");
        if let Ok((next, outcome)) = self.rack.after(event) {
            if outcome.stages > self.stages {
                (self.stages, self.slowest) = (outcome.stages, self.rack);
            }
            self.rack = next;
        }
    }

    pub fn all_ask(&mut self, cards: impl IntoIterator<Item = u8>) {
        for card in cards {
            self.push('Q', card);
        }
    }

    pub fn grant(&mut self) {
        self.push('A', 0);
    }

    /// Gives the card that had the bus.
    pub fn grant_and_release(&mut self) -> u8 {
        self.grant();
        let winner = self.rack.last_winner;
        self.push('R', winner);
        winner
    }
}
