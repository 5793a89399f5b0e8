//! What a printed load says about the time between an agent's requests.

use crate::bus::TRANSACTION;

#[derive(Clone, Copy, PartialEq, Eq)]
pub enum Load {
    /// Document 001: an agent's transaction time over the sum of that and its mean interrequest
    /// time.
    Share,
    /// Document 000: an agent's transaction time over its mean interrequest time.
    Rate,
}

impl Load {
    /// `load` is that of all agents together.
    pub fn mean_interrequest(self, agents: usize, load: f64) -> f64 {
        let own = agents as f64 / load;
        match self {
            Load::Share => TRANSACTION * (own - 1.0),
            Load::Rate => TRANSACTION * own,
        }
    }
}
