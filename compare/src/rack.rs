//! The rack's state and its events.

use crate::rules::{rule, Rule};
use crate::settling;
use crate::table::{self, Table};

#[derive(Clone, Copy, Debug, PartialEq, Eq, Hash)]
pub enum Bus {
    Free,
    Held(u8),
    /// Held, and a card is elected to follow. It may be the holder itself.
    Followed {
        holder: u8,
        elected: u8,
    },
}

impl Bus {
    pub fn holder(self) -> Option<u8> {
        match self {
            Bus::Free => None,
            Bus::Held(holder) | Bus::Followed { holder, .. } => Some(holder),
        }
    }

    pub fn elected(self) -> Option<u8> {
        match self {
            Bus::Followed { elected, .. } => Some(elected),
            _ => None,
        }
    }

    /// The winner has a free bus at once, or follows the holder.
    fn won_by(self, winner: u8) -> Bus {
        match self.holder() {
            None => Bus::Held(winner),
            Some(holder) => Bus::Followed {
                holder,
                elected: winner,
            },
        }
    }

    /// The holder hands the bus on to the elected card, if there is one.
    fn released(self) -> Bus {
        self.elected().map_or(Bus::Free, Bus::Held)
    }
}

#[derive(Clone, Copy, Debug, PartialEq, Eq, Hash)]
pub struct Rack {
    pub table: Table,
    pub waiting: [bool; 64],
    pub counts: [u8; 64],
    /// Under rule 3 the cards that are granted before any other.
    pub batch: [bool; 64],
    /// Under rule 4 the cards that were granted or elected since the inhibitions were last cleared.
    pub inhibited: [bool; 64],
    /// 0 if none yet.
    pub last_winner: u8,
    pub bus: Bus,
    /// The last settled value, which the lines still carry. 0 if none yet.
    pub kept: u16,
    /// How many cards wait, as the state has it stored.
    pub waiters: u8,
}

#[derive(Clone, Copy, Debug, PartialEq, Eq)]
pub enum Event {
    Request(u8),
    Arbitrate,
    Release(u8),
}

/// What an event reports when it is done. A refused event reports zeros beside its number.
#[derive(Clone, Copy, Debug, Default, PartialEq, Eq)]
pub struct Outcome {
    pub winner: u8,
    pub lines: u16,
    pub stages: u8,
    /// How many competing numbers equal the settled lines.
    pub copies: u8,
}

impl Rack {
    pub fn fresh(table: Table) -> Rack {
        Rack {
            table,
            waiting: [false; 64],
            counts: [0; 64],
            batch: [false; 64],
            inhibited: [false; 64],
            last_winner: 0,
            bus: Bus::Free,
            kept: 0,
            waiters: 0,
        }
    }

    /// A refused load gives the all-zero state, which is not well formed.
    pub fn load(file: &[u8]) -> (Rack, u32) {
        match table::load(file) {
            Ok(table) => (Rack::fresh(table), 0),
            Err(refusal) => (Rack::fresh(Table::NONE), refusal),
        }
    }

    pub fn is_well_formed(&self) -> bool {
        self.table.is_sound()
            && (0..64).all(|card| !self.waits(card) || self.table.has(card))
            && (self.last_winner == 0 || self.table.has(self.last_winner))
            && self.bus_is_well_formed()
            && u32::from(self.kept) < 1 << self.lines()
            && self.waiters == self.recount()
            && (0..64).all(|card| self.count_is_well_formed(card))
            && (0..64).all(|card| self.sets_are_well_formed(card))
    }

    /// How many lines the rule has. Only for a sound table.
    pub fn lines(&self) -> u32 {
        (rule(self.table.rule).lines)(self.table.k)
    }

    /// The elected card, or else the holder, is the last winner.
    fn bus_is_well_formed(&self) -> bool {
        let won_last = |card| self.table.has(card) && card == self.last_winner;
        match self.bus {
            Bus::Free => true,
            Bus::Held(holder) => won_last(holder),
            Bus::Followed { holder, elected } => self.table.has(holder) && won_last(elected),
        }
    }

    fn count_is_well_formed(&self, card: u8) -> bool {
        let may_count = self.waits(card) && self.table.has(card) && rule(self.table.rule).counts;
        let most = if may_count {
            table::greatest_number(self.table.k)
        } else {
            0
        };
        self.counts[usize::from(card)] <= most
    }

    fn sets_are_well_formed(&self, card: u8) -> bool {
        let rule = rule(self.table.rule);
        let may_be_in_batch = rule.batches && self.table.has(card) && self.waits(card);
        let may_be_inhibited = rule.inhibits && self.table.has(card);
        (may_be_in_batch || !self.batch[usize::from(card)])
            && (may_be_inhibited || !self.inhibited[usize::from(card)])
    }

    pub fn waits(&self, card: u8) -> bool {
        self.waiting[usize::from(card)]
    }

    pub fn waiting_cards(&self) -> Vec<u8> {
        (0..64).filter(|&card| self.waits(card)).collect()
    }

    /// How many cards wait, counted anew.
    pub fn recount(&self) -> u8 {
        self.waiting_cards().len() as u8
    }

    /// How many cards wait, as the panel asks it.
    pub fn waiting_count(&self) -> Result<u8, u32> {
        match self.is_well_formed() {
            true => Ok(self.waiters),
            false => Err(17),
        }
    }

    fn competitors(&self) -> Vec<u8> {
        let competes = rule(self.table.rule).competes;
        let mut waiting = self.waiting_cards();
        waiting.retain(|&card| competes(self, card));
        waiting
    }

    /// Cards wait and none of them competes, so that an arbitration forms a new batch or clears
    /// the inhibitions first.
    pub fn is_to_be_renewed(&self) -> bool {
        !self.waiting_cards().is_empty() && self.competitors().is_empty()
    }

    fn renewed(&self) -> Rack {
        let mut next = *self;
        if self.is_to_be_renewed() {
            (rule(self.table.rule).renew)(&mut next);
        }
        next
    }

    /// The state after an event with its outcome, or the refusal, which leaves the state as it is.
    pub fn after(&self, event: Event) -> Result<(Rack, Outcome), u32> {
        if !self.is_well_formed() {
            return Err(17);
        }
        match event {
            Event::Request(card) => self.request(card),
            Event::Arbitrate => self.arbitrate(),
            Event::Release(card) => self.release(card),
        }
    }

    fn request(&self, card: u8) -> Result<(Rack, Outcome), u32> {
        if !self.table.has(card) {
            return Err(11);
        }
        if self.waits(card) || self.bus.elected() == Some(card) {
            return Err(12);
        }
        let mut next = *self;
        next.waiting[usize::from(card)] = true;
        next.waiters += 1;
        next.counts[usize::from(card)] = 0;
        Ok((next, Outcome::default()))
    }

    fn release(&self, card: u8) -> Result<(Rack, Outcome), u32> {
        if !self.table.has(card) {
            return Err(11);
        }
        if self.bus.holder() != Some(card) {
            return Err(15);
        }
        let mut next = *self;
        next.bus = self.bus.released();
        Ok((next, Outcome::default()))
    }

    fn arbitrate(&self) -> Result<(Rack, Outcome), u32> {
        if self.bus.elected().is_some() {
            return Err(13);
        }
        if self.waiters == 0 {
            return Err(14);
        }
        let rule = rule(self.table.rule);
        let ready = self.renewed();
        let outcome = ready.settle(rule, &ready.competitors());
        let mut next = ready.grant(rule, outcome.winner)?;
        next.kept = outcome.lines;
        Ok((next, outcome))
    }

    fn settle(&self, rule: &Rule, competitors: &[u8]) -> Outcome {
        let m = self.lines();
        let numbers: Vec<u16> = competitors
            .iter()
            .map(|&card| (rule.number)(self, card))
            .collect();
        let settled = settling::settle(m, &numbers, m as usize + 1, self.kept.into())
            .expect("a well-formed state competes within the lines");
        Outcome {
            winner: (settled.lines() % (1 << self.table.k)) as u8,
            lines: settled.lines(),
            stages: settled.t(),
            copies: settled.copies,
        }
    }

    /// The winner's request ends here, whether it is granted the bus or elected to follow.
    fn grant(&self, rule: &Rule, winner: u8) -> Result<Rack, u32> {
        let mut next = *self;
        next.waiting[usize::from(winner)] = false;
        next.waiters -= 1;
        next.counts[usize::from(winner)] = 0;
        next.batch[usize::from(winner)] = false;
        next.inhibited[usize::from(winner)] = rule.inhibits;
        next.bus = self.bus.won_by(winner);
        next.last_winner = winner;
        if rule.counts {
            let full = table::greatest_number(self.table.k);
            for loser in next.waiting_cards() {
                let count = &mut next.counts[usize::from(loser)];
                if *count == full {
                    return Err(16);
                }
                *count += 1;
            }
        }
        Ok(next)
    }
}
