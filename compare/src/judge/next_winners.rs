//! Who is next, asked of `rackstate`.

use super::asked::{hold, hold_expecting};
use super::every_state;
use super::expect::{expect, shown};
use super::kind::Kind;
use super::met::Met;
use super::named_tables::file_with;
use super::state_maker::sound;
use crate::rack::{Bus, Rack};
use crate::rackstate::Shared;
use crate::rules::GREATEST_RULE;
use crate::seen_as_bytes::{ask, rack, record, Ask, STATE};

pub const NEXT: Ask = Ask {
    letter: b'W',
    number: 0,
};

const ARBITRATE: Ask = Ask {
    letter: b'A',
    number: 0,
};

const ROUND_ROBIN: u8 = 1;

/// The number of the screen and the card that an answer to this letter has.
fn answered(letter: u8, records: &[Vec<u8>], answers: &[Vec<u8>]) -> Option<[u8; 2]> {
    let at = records
        .iter()
        .position(|record| ask(record).letter == letter)?;
    Some([answers[at][STATE], answers[at][STATE + 1]])
}

/// Under round-robin who is next is what an arbitration of the same state answers, refused or done.
fn foretells(records: &[Vec<u8>], answers: &[Vec<u8>]) -> Result<(), String> {
    if rack(&records[0]).table.rule != ROUND_ROBIN {
        return Ok(());
    }
    let look = answered(NEXT.letter, records, answers);
    let arbitration = answered(ARBITRATE.letter, records, answers);
    let record = &records[0];
    expect(look, arbitration)
        .map_err(|what| format!("who is next: {what}; record of {}", shown(record)))
}

/// Puts what is asked of one state to both. Who is next is also held against the product's own
/// arbitration.
pub fn hold_foretelling(
    program: &Shared,
    records: &[Vec<u8>],
    met: &mut Met,
) -> Result<Vec<Vec<u8>>, String> {
    let answers = hold(program, records, met)?;
    foretells(records, &answers)?;
    Ok(answers)
}

fn both_asked(rack: &Rack) -> [Vec<u8>; 2] {
    [NEXT, ARBITRATE].map(|ask| record(rack, ask))
}

/// A rack with every card of k bits, in which these wait.
fn rack_of(k: u8, rule: u8, waiting: &[u8]) -> Rack {
    let cards: Vec<(u8, u8)> = (1..1 << k).map(|card| (card, card)).collect();
    let (mut rack, _) = Rack::load(&file_with(k, rule, &cards));
    for &card in waiting {
        rack.waiting[usize::from(card)] = true;
    }
    rack.waiters = rack.recount();
    rack
}

/// Who is next in a rack with every card of k bits.
struct Known {
    name: &'static str,
    k: u8,
    last_winner: u8,
    waiting: &'static [u8],
    next: u8,
}

const fn known(
    name: &'static str,
    k: u8,
    last_winner: u8,
    waiting: &'static [u8],
    next: u8,
) -> Known {
    Known {
        name,
        k,
        last_winner,
        waiting,
        next,
    }
}

static KNOWN: [Known; 19] = [
    known("one-below-the-last-winner", 3, 5, &[7, 6, 5, 4, 1], 4),
    known("the-least-below-the-last-winner", 3, 5, &[7, 6, 5, 1], 1),
    known("none-below-the-last-winner", 3, 5, &[7, 6, 5], 7),
    known("one-above-the-last-winner", 3, 5, &[6, 5], 6),
    known("the-last-winner-alone-again", 3, 5, &[5], 5),
    known("the-last-winner-again-and-one-above", 3, 4, &[4, 7], 7),
    known("the-last-winner-again-and-one-below", 3, 4, &[4, 3], 3),
    known("after-card-1-it-alone-again", 3, 1, &[1], 1),
    known("after-card-1-all", 3, 1, &[1, 2, 3, 4, 5, 6, 7], 7),
    known("after-card-1-card-2", 3, 1, &[1, 2], 2),
    known("after-the-greatest-it-alone-again", 3, 7, &[7], 7),
    known("after-the-greatest-all", 3, 7, &[1, 2, 3, 4, 5, 6, 7], 6),
    known("after-the-greatest-card-1", 3, 7, &[7, 1], 1),
    known("after-nobody-all", 3, 0, &[1, 2, 3, 4, 5, 6, 7], 7),
    known("after-nobody-card-1", 3, 0, &[1], 1),
    known("the-only-card-of-1-bit", 1, 1, &[1], 1),
    known("the-only-card-of-1-bit-at-first", 1, 0, &[1], 1),
    known("after-card-63-of-6-bits", 6, 63, &[63, 62], 62),
    known("after-card-32-of-6-bits", 6, 32, &[63, 32], 63),
];

/// On a free bus, and by the last winner's holding it, whatever the lines carry.
fn names(known: &Known, program: &Shared, met: &mut Met) -> Result<(), String> {
    let mut rack = rack_of(known.k, ROUND_ROBIN, known.waiting);
    rack.last_winner = known.last_winner;
    for kept in 0..1 << rack.lines() {
        rack.kept = kept;
        rack.bus = match known.last_winner {
            winner if winner != 0 && kept % 2 == 1 => Bus::Held(winner),
            _ => Bus::Free,
        };
        let answers = hold_foretelling(program, &both_asked(&rack), met)?;
        expect(&answers[0][STATE..], &[0, known.next, 0, 0, 0, 0])?;
    }
    Ok(())
}

fn named(program: &Shared) -> Vec<Kind> {
    let kind = |known: &'static Known| {
        let by = program.clone();
        Kind::named(format!("next-is-{}", known.name), move |met| {
            names(known, &by, met)
        })
    };
    KNOWN.iter().map(kind).collect()
}

/// A refused look names card 0.
fn refuses(number: u8, rack: &Rack, program: &Shared, met: &mut Met) -> Result<(), String> {
    let answer = hold_expecting(number.into(), rack, NEXT, program, met)?;
    expect(&answer[STATE..], &[number, 0, 0, 0, 0, 0])
}

fn refused(
    name: impl Into<String>,
    number: u8,
    rack: impl Fn() -> Rack + 'static,
    program: &Shared,
) -> Kind {
    let by = program.clone();
    Kind::named(name, move |met| refuses(number, &rack(), &by, met))
}

/// Card 3 holds the bus, card 5 is elected to follow, and these wait.
fn followed(rule: u8, waiting: &[u8]) -> Rack {
    let mut rack = rack_of(3, rule, waiting);
    (rack.bus, rack.last_winner) = (
        Bus::Followed {
            holder: 3,
            elected: 5,
        },
        5,
    );
    rack
}

/// Card 3 holds the bus and nobody waits.
fn held() -> Rack {
    let mut rack = rack_of(3, ROUND_ROBIN, &[]);
    (rack.bus, rack.last_winner) = (Bus::Held(3), 3);
    rack
}

/// The state says that one card more waits than do.
fn miscounted(mut rack: Rack) -> Rack {
    rack.waiters += 1;
    rack
}

fn refusals(program: &Shared) -> Vec<Kind> {
    let mut kinds = vec![
        refused("next-13", 13, || followed(1, &[2, 6]), program),
        refused("next-13-before-14", 13, || followed(1, &[]), program),
        refused("next-14", 14, || rack_of(3, 1, &[]), program),
        refused("next-14-on-a-held-bus", 14, held, program),
        refused(
            "next-17-before-13",
            17,
            || miscounted(followed(1, &[2])),
            program,
        ),
        refused(
            "next-17-before-14",
            17,
            || miscounted(rack_of(3, 1, &[])),
            program,
        ),
        refused(
            "next-17-of-a-refused-load",
            17,
            || Rack::load(&[]).0,
            program,
        ),
    ];
    for rule in (0..=GREATEST_RULE).filter(|&rule| rule != ROUND_ROBIN) {
        let name = |what: &str| format!("next-{what}-rule-{rule}");
        kinds.extend([
            refused(name("32"), 32, move || rack_of(3, rule, &[2, 6]), program),
            refused(
                name("32-before-13"),
                32,
                move || followed(rule, &[2, 6]),
                program,
            ),
            refused(
                name("32-before-14"),
                32,
                move || rack_of(3, rule, &[]),
                program,
            ),
            refused(
                name("17-before-32"),
                17,
                move || miscounted(followed(rule, &[2])),
                program,
            ),
        ]);
    }
    kinds
}

/// Every well-formed state of three cards under round-robin, with everything on the lines.
fn small_racks() -> Vec<Rack> {
    let with_any_kept = |rack: Rack| (0..1 << rack.lines()).map(move |kept| Rack { kept, ..rack });
    let states = every_state::states(ROUND_ROBIN).into_iter();
    states.flat_map(with_any_kept).collect()
}

fn every_small_rack(program: &Shared) -> Kind {
    let by = program.clone();
    Kind::named("next-in-every-state-of-3-cards", move |met| {
        let mut racks = small_racks().into_iter();
        racks.try_for_each(|rack| hold_foretelling(&by, &both_asked(&rack), met).map(|_| ()))
    })
}

/// Who is next in a generated state, after each card that may have won last and after none. The
/// winner may still have the bus.
pub fn after_every_winner(program: &Shared) -> Kind {
    let by = program.clone();
    Kind::new("state-next-after-every-winner", 2, move |rng, met| {
        let mut rack = sound(ROUND_ROBIN, rng);
        let mut winners = rack.table.numbers().into_iter().chain([0]);
        winners.try_for_each(|last_winner| {
            rack.last_winner = last_winner;
            rack.bus = match rng.chance(1, 2) && last_winner != 0 {
                true => Bus::Held(last_winner),
                false => Bus::Free,
            };
            hold_foretelling(&by, &both_asked(&rack), met).map(|_| ())
        })
    })
}

pub fn kinds(program: &Shared) -> Vec<Kind> {
    let mut kinds = named(program);
    kinds.extend(refusals(program));
    kinds.push(every_small_rack(program));
    kinds
}

#[cfg(test)]
mod tests {
    use super::{both_asked, foretells, rack_of, small_racks, KNOWN};
    use crate::next_winner::next_winner;
    use crate::seen_as_bytes::{answer, STATE};

    #[test]
    fn the_reference_names_the_known_ones() {
        for known in &KNOWN {
            let mut rack = rack_of(known.k, 1, known.waiting);
            rack.last_winner = known.last_winner;
            assert_eq!(next_winner(&rack), Ok(known.next), "{}", known.name);
        }
    }

    #[test]
    fn the_reference_foretells_in_every_small_rack() {
        let racks = small_racks();
        assert_eq!(racks.len(), 8 * 8 * 16);
        for rack in racks {
            let records = both_asked(&rack);
            let answers = records.clone().map(|record| answer(&record));
            assert_eq!(foretells(&records, &answers), Ok(()));
        }
    }

    #[test]
    fn a_look_that_differs_from_the_arbitration() {
        let records = both_asked(&rack_of(3, 1, &[2, 6]));
        let mut answers = records.clone().map(|record| answer(&record));
        answers[0][STATE + 1] = 2;
        assert!(foretells(&records, &answers).is_err());
    }
}
