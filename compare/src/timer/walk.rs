//! Every state that a small rack reaches, and the arbitration in each.

use crate::run::Run;
use compare::rack::{Event, Rack};
use compare::table::greatest_number;
use std::collections::HashMap;

/// A run to each state that the rack reaches from a fresh one.
pub fn reached(file: &[u8], k: u8) -> Vec<Run> {
    let mut reached = vec![Run::fresh(file)];
    let mut places = HashMap::from([(reached[0].rack, 0)]);
    let mut next = 0;
    while next < reached.len() {
        for (letter, number) in events(k) {
            let mut there = reached[next].clone();
            there.push(letter, number);
            let place = *places.entry(there.rack).or_insert(reached.len());
            match reached.get_mut(place) {
                Some(run) if run.stages >= there.stages => {}
                Some(run) => *run = there,
                None => reached.push(there),
            }
        }
        next += 1;
    }
    reached
}

fn events(k: u8) -> Vec<(char, u8)> {
    let cards = 1..=greatest_number(k);
    let of_cards = cards.flat_map(|card| [('Q', card), ('R', card)]);
    of_cards.chain([('A', 0)]).collect()
}

/// The run with the most stages.
pub fn slowest_run(reached: &[Run]) -> Run {
    let slowest = reached.iter().max_by_key(|run| run.stages);
    slowest.expect("the fresh state is reached").clone()
}

/// The state whose arbitration takes the most stages, if the lines may carry anything in each.
pub fn slowest_state(reached: &[Run]) -> Rack {
    let with_any_kept = |run: &Run| {
        let rack = run.rack;
        (0..1 << rack.lines()).map(move |kept| Rack { kept, ..rack })
    };
    let slowest = reached.iter().flat_map(with_any_kept).max_by_key(stages);
    slowest.expect("the fresh state is reached")
}

/// The stages of the arbitration in a state, 0 if it is refused.
pub fn stages(rack: &Rack) -> u8 {
    let done = rack.after(Event::Arbitrate);
    done.map_or(0, |(_, outcome)| outcome.stages)
}
