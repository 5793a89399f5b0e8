//! The closed system of document 001, section 4.1: agents that think, ask for the bus and use it.
//!
//! This part moves time. Who wins an arbitration is asked of the arbiter.

use crate::arbiter::Arbiter;
use compare::rng::Rng;

/// The bus transaction is the unit of time.
pub const TRANSACTION: f64 = 1.0;
const ARBITRATION: f64 = 0.5;

/// A transaction that has come to its end.
pub struct Served {
    pub card: usize,
    /// From the request to the end of the transaction.
    pub wait: f64,
    pub ended: f64,
}

pub struct Bus {
    arbiter: Arbiter,
    rng: Rng,
    mean_think: f64,
    /// When each card asks, or asked, for its next transaction. Card 1 is at 0.
    asks: Vec<f64>,
    /// The cards whose request the arbiter has heard and not yet granted.
    heard: Vec<bool>,
    holder: Option<usize>,
    /// Of the latest transaction.
    began: f64,
    ends: f64,
}

impl Bus {
    pub fn start(agents: usize, mean_think: f64, rule: u8, seed: u64) -> Result<Bus, String> {
        let mut bus = Bus {
            arbiter: Arbiter::start(agents, rule)?,
            rng: Rng::new(seed),
            mean_think,
            asks: Vec::new(),
            heard: vec![false; agents],
            holder: None,
            began: 0.0,
            ends: 0.0,
        };
        bus.asks = (0..agents).map(|_| bus.think()).collect();
        Ok(bus)
    }

    /// Runs until the next transaction has been granted, and gives it with its end. An arbitration
    /// that begins while a transaction is under way elects who is to follow.
    pub fn serve(&mut self) -> Result<Served, String> {
        let arbitration = self.arbitration_start();
        if arbitration >= self.ends {
            self.release();
        }
        self.pass_requests(arbitration);
        let winner = self.arbiter.arbitrate()?;
        self.release();
        self.grant(winner, arbitration)
    }

    /// The transaction under way comes to its end, if it has not yet.
    fn release(&mut self) {
        if let Some(card) = self.holder.take() {
            self.arbiter.release(card);
        }
    }

    /// At the start of a transaction if requests wait then, or else with the next request.
    fn arbitration_start(&self) -> f64 {
        let earliest = self.asks.iter().copied().fold(f64::INFINITY, f64::min);
        earliest.max(self.began)
    }

    /// Requests that come after the start of an arbitration don't compete in it, so the arbiter
    /// hears of them only after it. Nobody asks before the end of its own transaction, so that an
    /// elected card doesn't either.
    fn pass_requests(&mut self, until: f64) {
        let mut coming: Vec<usize> = (0..self.asks.len())
            .filter(|&place| !self.heard[place] && self.asks[place] <= until)
            .collect();
        coming.sort_by(|&a, &b| self.asks[a].total_cmp(&self.asks[b]));
        for place in coming {
            self.heard[place] = true;
            self.arbiter.request(place + 1);
        }
    }

    /// The winner takes the bus when the arbitration is over and the bus is free.
    fn grant(&mut self, winner: usize, arbitration: f64) -> Result<Served, String> {
        let place = winner.wrapping_sub(1);
        if self.heard.get(place) != Some(&true) {
            return Err(format!(
                "card {winner} was granted the bus and had not asked"
            ));
        }
        self.began = self.ends.max(arbitration + ARBITRATION);
        self.ends = self.began + TRANSACTION;
        self.holder = Some(winner);
        let wait = self.ends - self.asks[place];
        self.heard[place] = false;
        self.asks[place] = self.ends + self.think();
        Ok(Served {
            card: winner,
            wait,
            ended: self.ends,
        })
    }

    /// An exponential interrequest time.
    fn think(&mut self) -> f64 {
        let above_zero = ((self.rng.next_u64() >> 11) + 1) as f64 / (1u64 << 53) as f64;
        -self.mean_think * above_zero.ln()
    }
}
