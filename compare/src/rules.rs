//! The five rules: what each says of the lines, the competing numbers, the losers' counts and of
//! who competes.

use crate::rack::Rack;

pub struct Rule {
    /// How many lines the competitors settle on.
    pub lines: fn(k: u8) -> u32,
    /// The competing number of a waiting card.
    pub number: fn(rack: &Rack, card: u8) -> u16,
    /// Do the losers' counts grow?
    pub counts: bool,
    /// Does a waiting card compete?
    pub competes: fn(rack: &Rack, card: u8) -> bool,
    /// What an arbitration does first where cards wait and none of them competes.
    pub renew: fn(rack: &mut Rack),
    /// Is there a batch?
    pub batches: bool,
    /// Is the winner inhibited?
    pub inhibits: bool,
}

const FIXED: Rule = Rule {
    lines: |k| u32::from(k),
    number: |_, card| u16::from(card),
    counts: false,
    competes: |_, _| true,
    renew: |_| {},
    batches: false,
    inhibits: false,
};

const ROUND_ROBIN: Rule = Rule {
    lines: |k| u32::from(k) + 1,
    number: |rack, card| {
        let ahead = u16::from(card < rack.last_winner);
        u16::from(card) + (ahead << rack.table.k)
    },
    ..FIXED
};

const ARRIVAL: Rule = Rule {
    lines: |k| 2 * u32::from(k),
    number: |rack, card| {
        let count = u16::from(rack.counts[usize::from(card)]);
        u16::from(card) + (count << rack.table.k)
    },
    counts: true,
    ..FIXED
};

const BATCH: Rule = Rule {
    competes: |rack, card| rack.batch[usize::from(card)],
    renew: |rack| rack.batch = rack.waiting,
    batches: true,
    ..FIXED
};

const INHIBIT: Rule = Rule {
    competes: |rack, card| !rack.inhibited[usize::from(card)],
    renew: |rack| rack.inhibited = [false; 64],
    inhibits: true,
    ..FIXED
};

const RULES: [Rule; 5] = [FIXED, ROUND_ROBIN, ARRIVAL, BATCH, INHIBIT];

pub const GREATEST_RULE: u8 = RULES.len() as u8 - 1;

/// The rule of a table that passed its check.
pub fn rule(number: u8) -> &'static Rule {
    assert!(number <= GREATEST_RULE, "there is no rule {number}");
    &RULES[usize::from(number)]
}
