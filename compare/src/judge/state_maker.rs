//! Makes well-formed states of any table, and what is asked of a state.

use super::trace_maker::table_file;
use crate::rack::{Bus, Rack};
use crate::rng::Rng;
use crate::seen_as_bytes::Ask;
use crate::table::greatest_number;

/// A count from 0 to the greatest, which is often what it is.
fn count(greatest: u8, rng: &mut Rng) -> u8 {
    match rng.below(4) {
        0 => 0,
        1 => greatest,
        2 => greatest - 1,
        _ => rng.below(u64::from(greatest) + 1) as u8,
    }
}

/// None, some or all of the cards wait; under rule 2 with counts.
fn begin_waiting(rack: &mut Rack, rng: &mut Rng) {
    let eighths = *rng.pick(&[0, 1, 2, 4, 6, 8]);
    for card in rack.table.numbers() {
        let place = usize::from(card);
        rack.waiting[place] = rng.chance(eighths, 8);
        if rack.waiting[place] && rack.table.rule == 2 {
            rack.counts[place] = count(greatest_number(rack.table.k), rng);
        }
    }
    rack.waiters = rack.recount();
}

/// None, some or all of the cards that wait are in the batch.
fn form_batch(rack: &mut Rack, rng: &mut Rng) {
    let quarters = rng.between(0, 4);
    for card in rack.waiting_cards() {
        rack.batch[usize::from(card)] = rng.chance(quarters, 4);
    }
}

/// None, some or all of the cards are inhibited. Now and then all that wait are, so that an
/// arbitration has to clear the inhibitions.
fn inhibit(rack: &mut Rack, rng: &mut Rng) {
    let quarters = rng.between(0, 4);
    let all_that_wait = rng.chance(1, 4);
    for card in rack.table.numbers() {
        let at_random = rng.chance(quarters, 4);
        rack.inhibited[usize::from(card)] = at_random || all_that_wait && rack.waits(card);
    }
}

/// What the lines may carry: anything that fits, often nothing or all.
fn kept(rack: &Rack, rng: &mut Rng) -> u16 {
    let most = (1 << rack.lines()) - 1;
    let any = rng.between(0, u64::from(most)) as u16;
    *rng.pick(&[0, most, any, any])
}

/// A well-formed state of any table with this rule.
pub fn sound(rule: u8, rng: &mut Rng) -> Rack {
    let (mut rack, _) = Rack::load(&table_file(rule, rng));
    begin_waiting(&mut rack, rng);
    rack.kept = kept(&rack, rng);
    match rule {
        3 => form_batch(&mut rack, rng),
        4 => inhibit(&mut rack, rng),
        _ => {}
    }
    if rng.chance(3, 4) {
        rack.last_winner = *rng.pick(&rack.table.numbers());
        rack.bus = bus(&rack, rng);
    }
    rack
}

/// A bus whose elected card, or else its holder, is the last winner. The holder before an elected
/// card is any card, often the same.
fn bus(rack: &Rack, rng: &mut Rng) -> Bus {
    let any = *rng.pick(&rack.table.numbers());
    let winner = rack.last_winner;
    let followed = Bus::Followed {
        holder: *rng.pick(&[any, any, winner]),
        elected: winner,
    };
    *rng.pick(&[Bus::Free, Bus::Held(winner), followed])
}

/// A well-formed state whose arbitration forms a new batch, or clears the inhibitions.
pub fn to_be_renewed(rule: u8, rng: &mut Rng) -> Rack {
    loop {
        let rack = sound(rule, rng);
        if rack.is_to_be_renewed() && rack.bus.elected().is_none() {
            return rack;
        }
    }
}

/// A number that an event may name, in the table or not.
fn card(rack: &Rack, rng: &mut Rng) -> u8 {
    let cards = rack.table.numbers();
    let any = rng.byte();
    match rng.below(5) {
        0 => rack.last_winner,
        1 => *rng.pick(&[0, 63, 64, 255, any]),
        2 => rack.bus.holder().unwrap_or(any),
        _ if cards.is_empty() => any,
        _ => *rng.pick(&cards),
    }
}

/// How many bytes are lent to a save: about as many as it needs, or none, or many.
fn lent(rack: &Rack, rng: &mut Rng) -> u8 {
    let needed = 24 + 2 * rack.table.numbers().len() as u8;
    let any = rng.byte();
    *rng.pick(&[needed - 1, needed, needed + 1, needed - 2, 0, 255, any])
}

/// A letter that names no event, no save and no question.
fn unknown_letter(rng: &mut Rng) -> u8 {
    loop {
        let any = rng.byte();
        let letter = *rng.pick(&[
            b'q', b'a', b'r', b's', b'n', b'w', b'P', b'B', b'V', b'X', 0, 255, any,
        ]);
        if !b"QARSNW".contains(&letter) {
            return letter;
        }
    }
}

/// Each event, a save, how many wait, who is next, and an unknown letter, in any order.
pub fn asks(rack: &Rack, rng: &mut Rng) -> Vec<Ask> {
    let any = rng.byte();
    let mut asks = [
        (b'Q', card(rack, rng)),
        (b'A', *rng.pick(&[0, any])),
        (b'R', card(rack, rng)),
        (b'S', lent(rack, rng)),
        (b'N', *rng.pick(&[0, any])),
        (b'W', *rng.pick(&[0, any])),
        (unknown_letter(rng), card(rack, rng)),
    ]
    .map(|(letter, number)| Ask { letter, number });
    rng.shuffle(&mut asks);
    asks.to_vec()
}
