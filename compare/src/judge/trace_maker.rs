//! Makes traces. The reference's state steers them, so that they go on meaning something.

use super::draft::{Draft, Shape};
use crate::listing::event;
use crate::rack::{Bus, Event, Rack};
use crate::rng::Rng;
use crate::table::greatest_number;

/// A sound table file with a given rule.
pub fn table_file(rule: u8, rng: &mut Rng) -> Vec<u8> {
    let mut shape = Shape::sound(rng);
    shape.rule = rule;
    Draft::of(shape, rng).file(rng)
}

/// As many cards as there can be: 63 at k = 6.
pub fn full_table_file(rule: u8, rng: &mut Rng) -> Vec<u8> {
    let mut shape = Shape::sound(rng);
    shape.rule = rule;
    shape.k = 6;
    shape.cards = usize::from(greatest_number(6));
    Draft::of(shape, rng).file(rng)
}

pub struct Maker {
    rack: Rack,
    cards: Vec<u8>,
    trace: Vec<u8>,
    /// How often a batch was formed or the inhibitions were cleared.
    renewals: u64,
    done: usize,
}

impl Maker {
    pub fn new(file: &[u8]) -> Maker {
        let (rack, _) = Rack::load(file);
        Maker {
            cards: rack.table.numbers(),
            rack,
            trace: Vec::new(),
            renewals: 0,
            done: 0,
        }
    }

    pub fn trace(self) -> Vec<u8> {
        self.trace
    }

    pub fn lines(&self) -> usize {
        self.trace.len() / 5
    }

    pub fn done_events(&self) -> usize {
        self.done
    }

    pub fn push(&mut self, letter: char, number: u8) {
        let line = format!("{letter} {number:02}\n");
        self.trace.extend(line.as_bytes());
        let event = event(line.as_bytes()).expect("a made line is well formed");
        if let Ok((next, _)) = self.rack.after(event) {
            let renewed = event == Event::Arbitrate && self.rack.is_to_be_renewed();
            self.renewals += u64::from(renewed);
            self.done += 1;
            self.rack = next;
        }
    }

    /// Any well-formed line, sensible or not, often by the holder or the elected card.
    pub fn anything(&mut self, rng: &mut Rng) {
        let card = if self.cards.is_empty() {
            1
        } else {
            *rng.pick(&self.cards)
        };
        let any = rng.below(100) as u8;
        let holder = self.rack.bus.holder().unwrap_or(card);
        let elected = self.rack.bus.elected().unwrap_or(card);
        let number = *rng.pick(&[card, card, holder, elected, any]);
        match rng.below(3) {
            0 => self.push('Q', number),
            1 => self.push('A', 0),
            _ => self.push('R', number),
        }
    }

    /// A line that is done more often than not.
    pub fn sensible(&mut self, rng: &mut Rng) {
        let card = *rng.pick(&self.cards);
        match self.rack.bus {
            Bus::Free if rng.chance(1, 2) => self.push('A', 0),
            Bus::Held(_) if rng.chance(1, 4) => self.push('A', 0),
            Bus::Held(holder) if rng.chance(1, 3) => self.push('R', holder),
            Bus::Followed { holder, .. } if rng.chance(1, 2) => self.push('R', holder),
            _ => self.push('Q', card),
        }
    }

    /// Every card asks, in any order.
    pub fn all_ask(&mut self, rng: &mut Rng) {
        let mut cards = self.cards.clone();
        rng.shuffle(&mut cards);
        for card in cards {
            self.push('Q', card);
        }
    }

    /// The holder lets go, and the card elected to follow too.
    fn free_the_bus(&mut self) {
        while let Some(holder) = self.rack.bus.holder() {
            self.push('R', holder);
        }
    }

    /// One grant of a free bus. The winner asks again, while it holds the bus or after.
    pub fn grant_and_ask_again(&mut self, while_holding: bool) {
        self.free_the_bus();
        self.push('A', 0);
        let winner = self.rack.last_winner;
        if while_holding {
            self.push('Q', winner);
            self.push('R', winner);
        } else {
            self.push('R', winner);
            self.push('Q', winner);
        }
    }

    fn grant_and_release(&mut self) {
        self.free_the_bus();
        self.push('A', 0);
        self.push('R', self.rack.last_winner);
    }

    /// The bus is held, and a card is elected to follow. Then one of the two, or any other, may do
    /// what it can't do now.
    fn elect(&mut self, rng: &mut Rng) {
        if self.rack.bus == Bus::Free {
            self.push('A', 0);
        }
        self.push('A', 0);
        let won = self.rack.last_winner;
        let card = *rng.pick(&self.cards);
        match rng.below(12) {
            0 => self.push('Q', won),
            1 => self.push('R', won),
            2 => self.push('R', card),
            3 => self.push('A', 0),
            _ => {}
        }
    }

    /// One card is elected while another holds the bus, which is then handed on. The card that had
    /// it asks again, before the election or after its release, or doesn't.
    fn elect_and_hand_on(&mut self, rng: &mut Rng) {
        let Some(holder) = self.rack.bus.holder() else {
            return self.push('A', 0);
        };
        let asks = rng.below(5);
        if asks <= 1 {
            self.push('Q', holder);
        }
        self.elect(rng);
        self.push('R', holder);
        if asks == 2 || asks == 3 {
            self.push('Q', holder);
        }
    }

    /// Grants and elections until nobody waits, and one arbitration more, which is refused.
    fn drain(&mut self, rng: &mut Rng) {
        let overlapped = rng.chance(1, 2);
        while !self.rack.waiting_cards().is_empty() {
            match self.rack.bus.holder() {
                Some(holder) if overlapped => {
                    self.push('A', 0);
                    self.push('R', holder);
                }
                _ => self.grant_and_release(),
            }
        }
        self.push('A', 0);
    }

    /// Some cards ask and one wins, on a free bus or on one that is held. Mostly it asks again.
    /// Seldom all who wait win after that.
    fn crowd(&mut self, rng: &mut Rng) {
        for _ in 0..rng.between(1, 4) {
            let card = *rng.pick(&self.cards);
            self.push('Q', card);
        }
        match rng.below(8) {
            0 => self.grant_and_release(),
            1 => self.grant_and_ask_again(true),
            2 | 3 => self.grant_and_ask_again(false),
            _ => self.elect_and_hand_on(rng),
        }
        if rng.chance(1, 20) {
            self.drain(rng);
        }
    }
}

/// Sensible lines with some others among them.
pub fn mixed(file: &[u8], lines: usize, rng: &mut Rng) -> Vec<u8> {
    let mut maker = Maker::new(file);
    while maker.lines() < lines {
        if rng.chance(4, 5) {
            maker.sensible(rng);
        } else {
            maker.anything(rng);
        }
    }
    maker.trace()
}

pub fn blind(file: &[u8], lines: usize, rng: &mut Rng) -> Vec<u8> {
    let mut maker = Maker::new(file);
    while maker.lines() < lines {
        maker.anything(rng);
    }
    maker.trace()
}

/// All cards always ask.
pub fn saturated(file: &[u8], lines: usize, rng: &mut Rng) -> Vec<u8> {
    let mut maker = Maker::new(file);
    maker.all_ask(rng);
    while maker.lines() < lines {
        let while_holding = rng.chance(1, 2);
        maker.grant_and_ask_again(while_holding);
    }
    maker.trace()
}

/// Most cards ask most of the time, and the bus is handed on from one to the next.
pub fn electing(file: &[u8], lines: usize, rng: &mut Rng) -> Vec<u8> {
    let mut maker = Maker::new(file);
    maker.all_ask(rng);
    while maker.lines() < lines {
        maker.elect_and_hand_on(rng);
        if rng.chance(1, 4) {
            let card = *rng.pick(&maker.cards);
            maker.push('Q', card);
        }
    }
    maker.trace()
}

/// Few others ask, so that the last winner meets itself again and again.
pub fn asks_again(file: &[u8], lines: usize, rng: &mut Rng) -> Vec<u8> {
    let mut maker = Maker::new(file);
    maker.sensible(rng);
    while maker.lines() < lines {
        if rng.chance(1, 3) {
            maker.sensible(rng);
        } else if maker.rack.bus == Bus::Free && !maker.rack.waiting_cards().is_empty() {
            let while_holding = rng.chance(1, 2);
            maker.grant_and_ask_again(while_holding);
        } else if let Some(holder) = maker.rack.bus.holder() {
            maker.push('R', holder);
        } else {
            maker.sensible(rng);
        }
    }
    maker.trace()
}

/// Many ask, and most of them again and again.
pub fn crowded(file: &[u8], lines: usize, rng: &mut Rng) -> Vec<u8> {
    let mut maker = Maker::new(file);
    while maker.lines() < lines {
        maker.crowd(rng);
    }
    maker.trace()
}

/// Many ask, until this often a batch was formed or the inhibitions were cleared. Only for a rule
/// that has the one or the other.
pub fn renewing(file: &[u8], renewals: u64, rng: &mut Rng) -> Vec<u8> {
    let mut maker = Maker::new(file);
    while maker.renewals < renewals {
        maker.crowd(rng);
    }
    maker.trace()
}
