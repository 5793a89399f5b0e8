//! Faults that make a state ill-formed: each thing that a well-formed state must be, broken alone.

use crate::rack::{Bus, Rack};
use crate::rng::Rng;
use crate::rules::GREATEST_RULE;
use crate::settling::MOST_LINES;
use crate::table::greatest_number;

pub type Fault = (&'static str, fn(&mut Rack, &mut Rng));

fn any_card(rack: &Rack, rng: &mut Rng) -> u8 {
    match rack.table.numbers() {
        cards if cards.is_empty() => 1,
        cards => *rng.pick(&cards),
    }
}

/// A number from 0 to 63 that no card has; number 0 is always one.
fn stranger(rack: &Rack, rng: &mut Rng) -> u8 {
    let strangers: Vec<u8> = (0..64).filter(|&a| !rack.table.has(a)).collect();
    match strangers.is_empty() {
        true => 0,
        false => *rng.pick(&strangers),
    }
}

/// A slot that no card has, if there is one.
fn free_slot(rack: &Rack) -> u8 {
    let mut slots = 1..=63;
    slots
        .find(|slot| !rack.table.slots.contains(slot))
        .unwrap_or(1)
}

/// From `low` to 255.
fn over(low: u8, rng: &mut Rng) -> u8 {
    let any = rng.between(u64::from(low), 255) as u8;
    *rng.pick(&[low, 255, any])
}

/// The number of waiting cards follows, so that it is no other fault.
fn put_waiting(rack: &mut Rack, card: usize, waits: bool) {
    rack.waiting[card] = waits;
    rack.waiters = rack.recount();
}

/// Puts the rack under a rule. What the old rule counted, marked and kept on its lines could be more
/// faults, so it goes.
fn put_under(rule: u8, rack: &mut Rack) {
    if rack.table.rule != rule {
        rack.table.rule = rule;
        rack.counts = [0; 64];
        rack.batch = [false; 64];
        rack.inhibited = [false; 64];
        rack.kept = 0;
    }
}

/// Puts the rack under any rule but this one.
fn put_under_another(than: u8, rack: &mut Rack, rng: &mut Rng) {
    let others: Vec<u8> = (0..=GREATEST_RULE).filter(|&rule| rule != than).collect();
    put_under(*rng.pick(&others), rack);
}

fn no_card(rack: &mut Rack, _: &mut Rng) {
    *rack = Rack::fresh(rack.table);
    rack.table.slots = [0; 64];
}

/// A card with a number of more than k bits; at k = 6 there is none, so k becomes less, and what is
/// kept on the lines may no longer fit.
fn number_over_k(rack: &mut Rack, rng: &mut Rng) {
    rack.table.k = rack.table.k.clamp(1, 5);
    rack.kept = 0;
    let least = u64::from(greatest_number(rack.table.k)) + 1;
    let number = rng.between(least, 63) as usize;
    rack.table.slots[number] = free_slot(rack);
}

/// Two numbers have one slot. Where there is but one number, number 0 has it too.
fn slot_twice(rack: &mut Rack, rng: &mut Rng) {
    let card = any_card(rack, rng);
    let greatest = greatest_number(rack.table.k.clamp(1, 6));
    let others: Vec<u8> = (1..=greatest).filter(|&a| a != card).collect();
    let other = match others.is_empty() {
        true => 0,
        false => *rng.pick(&others),
    };
    let slot = rack.table.slots[usize::from(card)].max(1);
    rack.table.slots[usize::from(card)] = slot;
    rack.table.slots[usize::from(other)] = slot;
}

fn table_faults() -> Vec<Fault> {
    vec![
        ("k-0", |rack, _| rack.table.k = 0),
        ("k-over-6", |rack, rng| rack.table.k = over(7, rng)),
        ("rule-over-4", |rack, rng| put_under(over(5, rng), rack)),
        ("no-card", no_card),
        ("slot-of-number-0", |rack, _| {
            rack.table.slots[0] = free_slot(rack)
        }),
        ("number-over-k", number_over_k),
        ("slot-over-63", |rack, rng| {
            let card = any_card(rack, rng);
            rack.table.slots[usize::from(card)] = over(64, rng);
        }),
        ("slot-twice", slot_twice),
    ]
}

/// The last winner is no card, nor 0; where all 63 numbers are cards it is 64.
fn stranger_won(rack: &mut Rack, rng: &mut Rng) {
    let strangers: Vec<u8> = (1..=64).filter(|&a| !rack.table.has(a)).collect();
    rack.bus = Bus::Free;
    rack.last_winner = *rng.pick(&strangers);
}

fn holds(rack: &mut Rack, holder: u8) {
    rack.bus = Bus::Held(holder);
    rack.last_winner = holder;
}

/// A holder beside another last winner, which may be none.
fn holder_is_not_the_last_winner(rack: &mut Rack, rng: &mut Rng) {
    let holder = any_card(rack, rng);
    let mut others = rack.table.numbers();
    others.retain(|&card| card != holder);
    others.push(0);
    rack.bus = Bus::Held(holder);
    rack.last_winner = *rng.pick(&others);
}

/// Somebody holds the bus, and who is elected to follow won last.
fn elect(rack: &mut Rack, holder: u8, elected: u8) {
    rack.bus = Bus::Followed { holder, elected };
    rack.last_winner = elected;
}

/// An elected card beside another last winner, which may be the holder, or none.
fn elected_is_not_the_last_winner(rack: &mut Rack, rng: &mut Rng) {
    let (holder, elected) = (any_card(rack, rng), any_card(rack, rng));
    let mut others = rack.table.numbers();
    others.push(0);
    if holder != elected && rng.chance(1, 2) {
        others = vec![holder];
    }
    others.retain(|&card| card != elected);
    elect(rack, holder, elected);
    rack.last_winner = *rng.pick(&others);
}

/// An elected card outside the table, other than 0, can't come alone: if it is the last winner, that
/// is a fault too, and if it is not, it should be.
fn election_faults() -> Vec<Fault> {
    vec![
        ("stranger-holds-before-an-elected-card", |rack, rng| {
            let (holder, elected) = (stranger(rack, rng), any_card(rack, rng));
            elect(rack, holder, elected);
        }),
        ("holder-over-63-before-an-elected-card", |rack, rng| {
            let (holder, elected) = (over(64, rng), any_card(rack, rng));
            elect(rack, holder, elected);
        }),
        ("number-0-elected", |rack, rng| {
            let holder = any_card(rack, rng);
            elect(rack, holder, 0);
        }),
        ("stranger-elected", |rack, rng| {
            let (holder, elected) = (any_card(rack, rng), stranger(rack, rng));
            elect(rack, holder, elected);
        }),
        ("elected-over-63", |rack, rng| {
            let (holder, elected) = (any_card(rack, rng), over(64, rng));
            elect(rack, holder, elected);
        }),
        (
            "elected-is-not-the-last-winner",
            elected_is_not_the_last_winner,
        ),
    ]
}

fn winner_faults() -> Vec<Fault> {
    vec![
        ("stranger-waits", |rack, rng| {
            let stranger = stranger(rack, rng);
            put_waiting(rack, stranger.into(), true);
        }),
        ("stranger-won", stranger_won),
        ("last-winner-over-63", |rack, rng| {
            rack.bus = Bus::Free;
            rack.last_winner = over(64, rng);
        }),
        ("stranger-holds", |rack, rng| {
            let stranger = stranger(rack, rng);
            holds(rack, stranger);
        }),
        ("holder-over-63", |rack, rng| holds(rack, over(64, rng))),
        (
            "holder-is-not-the-last-winner",
            holder_is_not_the_last_winner,
        ),
    ]
}

/// The least value that the lines can't carry. Where another fault left no sound table, the rule's
/// lines are unknown, and no rule has more than 12.
fn least_over_the_lines(rack: &Rack) -> u16 {
    let lines = match rack.table.is_sound() {
        true => rack.lines(),
        false => MOST_LINES,
    };
    1 << lines
}

fn kept_faults() -> Vec<Fault> {
    vec![
        ("kept-one-over-the-lines", |rack, _| {
            rack.kept = least_over_the_lines(rack)
        }),
        ("kept-far-over-the-lines", |rack, rng| {
            let least = least_over_the_lines(rack);
            let any = rng.between(least.into(), u16::MAX.into()) as u16;
            rack.kept = *rng.pick(&[least + 1, 1 << 15, u16::MAX, any]);
        }),
    ]
}

/// Nobody waits but one card, which the state says doesn't.
fn none_of_one(rack: &mut Rack, rng: &mut Rng) {
    *rack = Rack::fresh(rack.table);
    rack.waiting[usize::from(any_card(rack, rng))] = true;
}

fn waiter_faults() -> Vec<Fault> {
    vec![
        ("waiters-one-more", |rack, _| {
            rack.waiters = rack.recount() + 1
        }),
        ("waiters-one-less", |rack, rng| {
            let card = any_card(rack, rng);
            put_waiting(rack, card.into(), true);
            rack.waiters -= 1;
        }),
        ("waiters-none-of-one", none_of_one),
        ("waiters-64", |rack, _| rack.waiters = 64),
        ("waiters-any-other", |rack, rng| {
            let other = rng.between(1, 255) as u8;
            rack.waiters = rack.recount().wrapping_add(other);
        }),
    ]
}

fn count_without_waiting(rack: &mut Rack, rng: &mut Rng) {
    put_under(2, rack);
    let card = usize::from(any_card(rack, rng));
    put_waiting(rack, card, false);
    rack.counts[card] = over(1, rng);
}

fn count_over_range(rack: &mut Rack, rng: &mut Rng) {
    put_under(2, rack);
    let card = usize::from(any_card(rack, rng));
    put_waiting(rack, card, true);
    rack.counts[card] = over(greatest_number(rack.table.k.clamp(1, 6)) + 1, rng);
}

fn count_under_another_rule(rack: &mut Rack, rng: &mut Rng) {
    put_under_another(2, rack, rng);
    let card = usize::from(any_card(rack, rng));
    put_waiting(rack, card, true);
    rack.counts[card] = over(1, rng);
}

fn count_faults() -> Vec<Fault> {
    vec![
        ("count-without-waiting", count_without_waiting),
        ("count-of-a-stranger", |rack, rng| {
            put_under(2, rack);
            let stranger = usize::from(stranger(rack, rng));
            rack.counts[stranger] = over(1, rng);
        }),
        ("count-over-range", count_over_range),
        ("count-under-another-rule", count_under_another_rule),
    ]
}

/// This one can't come alone: if the stranger waits, that is a fault too, and if it doesn't,
/// the batch has a card that doesn't wait.
fn batch_of_a_stranger(rack: &mut Rack, rng: &mut Rng) {
    put_under(3, rack);
    let stranger = usize::from(stranger(rack, rng));
    put_waiting(rack, stranger, rng.chance(1, 2));
    rack.batch[stranger] = true;
}

fn batch_without_waiting(rack: &mut Rack, rng: &mut Rng) {
    put_under(3, rack);
    let card = usize::from(any_card(rack, rng));
    put_waiting(rack, card, false);
    rack.batch[card] = true;
}

fn batch_under_another_rule(rack: &mut Rack, rng: &mut Rng) {
    put_under_another(3, rack, rng);
    let card = usize::from(any_card(rack, rng));
    put_waiting(rack, card, true);
    rack.batch[card] = true;
}

fn set_faults() -> Vec<Fault> {
    vec![
        ("batch-of-a-stranger", batch_of_a_stranger),
        ("batch-without-waiting", batch_without_waiting),
        ("batch-under-another-rule", batch_under_another_rule),
        ("inhibition-of-a-stranger", |rack, rng| {
            put_under(4, rack);
            let stranger = usize::from(stranger(rack, rng));
            rack.inhibited[stranger] = true;
        }),
        ("inhibition-under-another-rule", |rack, rng| {
            put_under_another(4, rack, rng);
            let card = usize::from(any_card(rack, rng));
            rack.inhibited[card] = true;
        }),
    ]
}

pub fn faults() -> Vec<Fault> {
    [
        table_faults(),
        winner_faults(),
        election_faults(),
        kept_faults(),
        waiter_faults(),
        count_faults(),
        set_faults(),
    ]
    .concat()
}
