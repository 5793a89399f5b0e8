//! Every well-formed state of three cards, and everything that can be asked of it.

use super::kind::Kind;
use super::named_tables::file_with;
use super::next_winners::hold_foretelling;
use crate::rack::{Bus, Rack};
use crate::rackstate::Shared;
use crate::rules::GREATEST_RULE;
use crate::seen_as_bytes::{record, Ask};
use crate::table::greatest_number;

const K: u8 = 2;
const CARDS: [u8; 3] = [1, 2, 3];

/// Every choice of none, some or all of these cards.
fn choices(cards: &[u8]) -> Vec<Vec<u8>> {
    let choice = |set: u32| {
        let chosen = (0..cards.len()).filter(|place| set >> place & 1 == 1);
        chosen.map(|place| cards[place]).collect()
    };
    (0..1 << cards.len()).map(choice).collect()
}

fn set_of(cards: &[u8]) -> [bool; 64] {
    let mut set = [false; 64];
    cards.iter().for_each(|&card| set[usize::from(card)] = true);
    set
}

fn with_any_waiting(rack: Rack) -> Vec<Rack> {
    let some = choices(&CARDS).into_iter();
    some.map(|cards| Rack {
        waiting: set_of(&cards),
        waiters: cards.len() as u8,
        ..rack
    })
    .collect()
}

/// One card with each count that it may have. A card that doesn't wait has none.
fn with_any_count(card: u8, rack: Rack) -> Vec<Rack> {
    let greatest = match rack.waits(card) {
        true => greatest_number(K),
        false => 0,
    };
    let with = |count| {
        let mut counted = rack;
        counted.counts[usize::from(card)] = count;
        counted
    };
    (0..=greatest).map(with).collect()
}

/// What the rule counts and marks: any counts, any batch, any inhibitions.
fn with_any_marks(rack: Rack) -> Vec<Rack> {
    match rack.table.rule {
        2 => CARDS.iter().fold(vec![rack], |racks, &card| {
            let each = racks.into_iter();
            each.flat_map(|rack| with_any_count(card, rack)).collect()
        }),
        3 => {
            let batches = choices(&rack.waiting_cards()).into_iter();
            let with = |cards: Vec<u8>| Rack {
                batch: set_of(&cards),
                ..rack
            };
            batches.map(with).collect()
        }
        4 => {
            let with = |cards: Vec<u8>| Rack {
                inhibited: set_of(&cards),
                ..rack
            };
            choices(&CARDS).into_iter().map(with).collect()
        }
        _ => vec![rack],
    }
}

/// Each bus with each last winner that belongs to it.
fn with_any_bus(rack: Rack) -> Vec<Rack> {
    let mut buses = vec![(0, Bus::Free)];
    for winner in CARDS {
        buses.extend([(winner, Bus::Free), (winner, Bus::Held(winner))]);
        buses.extend(CARDS.map(|holder| {
            let elected = winner;
            (winner, Bus::Followed { holder, elected })
        }));
    }
    let with = |(last_winner, bus)| Rack {
        last_winner,
        bus,
        ..rack
    };
    buses.into_iter().map(with).collect()
}

/// Every well-formed state under a rule, with nothing on the lines.
pub fn states(rule: u8) -> Vec<Rack> {
    let (fresh, _) = Rack::load(&file_with(K, rule, &CARDS.map(|card| (card, card))));
    let waiting = with_any_waiting(fresh).into_iter();
    let marked = waiting.flat_map(with_any_marks);
    marked.flat_map(with_any_bus).collect()
}

/// Each event by each card, how many wait, and who is next.
fn everything(rack: &Rack) -> Vec<Vec<u8>> {
    let by_cards = CARDS.iter().flat_map(|&card| [(b'Q', card), (b'R', card)]);
    let asks = by_cards.chain([(b'A', 0), (b'N', 0), (b'W', 0)]);
    asks.map(|(letter, number)| record(rack, Ask { letter, number }))
        .collect()
}

/// The lines carry something else in each state.
fn every_state(rule: u8, program: &Shared) -> Kind {
    let by = program.clone();
    let name = format!("every-well-formed-state-of-3-cards-rule-{rule}");
    Kind::named(name, move |met| {
        let mut racks = states(rule).into_iter().zip(0..);
        racks.try_for_each(|(mut rack, place): (Rack, u32)| {
            rack.kept = (7 * place % (1 << rack.lines())) as u16;
            hold_foretelling(&by, &everything(&rack), met).map(|_| ())
        })
    })
}

pub fn kinds(program: &Shared) -> Vec<Kind> {
    (0..=GREATEST_RULE)
        .map(|rule| every_state(rule, program))
        .collect()
}

#[cfg(test)]
mod tests {
    use super::states;
    use crate::rack::Rack;
    use crate::rules::GREATEST_RULE;
    use std::collections::HashSet;

    /// A bus is free after any winner or none, held by one, or held by one with one elected: 16.
    #[test]
    fn there_are_as_many_as_can_be() {
        let counts = (0..=GREATEST_RULE).map(|rule| states(rule).len());
        let sets = [8, 8, 5 * 5 * 5, 3 * 3 * 3, 8 * 8];
        assert_eq!(counts.collect::<Vec<_>>(), sets.map(|sets| 16 * sets));
    }

    #[test]
    fn they_are_well_formed_and_different() {
        for rule in 0..=GREATEST_RULE {
            let states = states(rule);
            assert!(states.iter().all(Rack::is_well_formed));
            let different: HashSet<&Rack> = states.iter().collect();
            assert_eq!(different.len(), states.len());
        }
    }
}
