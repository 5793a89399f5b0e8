//! Generated states, well formed and not, through `rackstate`.

use super::asked::{hold, same};
use super::draft::any_rule;
use super::expect::expect;
use super::guarded::noise;
use super::kind::Kind;
use super::met::Met;
use super::next_winners::{after_every_winner, hold_foretelling};
use super::state_faults::{faults, Fault};
use super::state_maker::{asks, sound, to_be_renewed};
use crate::rack::Rack;
use crate::rackstate::{self, Shared};
use crate::rng::Rng;
use crate::rules::GREATEST_RULE;
use crate::seen_as_bytes::{answer, answer_length, ask, number_of, rack, record, RECORD, STATE};
use std::ops::Range;

const WAITING: Range<usize> = 2 + 64..2 + 2 * 64;
const BATCH_AND_INHIBITED: Range<usize> = 2 + 3 * 64..2 + 5 * 64;
const BUS: usize = 2 + 5 * 64 + 1;
const HOLDER: usize = BUS + 1;
const ELECTED: usize = BUS + 2;

/// The same state said otherwise: yes is anything but 0, a bus with an elected card anything but 0
/// and 1, and whoever the bus doesn't have may be anybody.
fn disguised(mut record: Vec<u8>, rng: &mut Rng) -> Vec<u8> {
    for at in WAITING.chain(BATCH_AND_INHIBITED) {
        if record[at] != 0 && rng.chance(1, 2) {
            record[at] = rng.between(1, 255) as u8;
        }
    }
    match record[BUS] {
        0 => (record[HOLDER], record[ELECTED]) = (rng.byte(), rng.byte()),
        1 => record[ELECTED] = rng.byte(),
        _ if rng.chance(1, 2) => record[BUS] = rng.between(2, 255) as u8,
        _ => {}
    }
    record
}

/// Everything that is asked of one state.
fn records(rack: &Rack, rng: &mut Rng) -> Vec<Vec<u8>> {
    asks(rack, rng)
        .into_iter()
        .map(|ask| disguised(record(rack, ask), rng))
        .collect()
}

/// Both refuse with 17, unless the letter is unknown.
fn hold_refusing(
    rack: &Rack,
    program: &Shared,
    rng: &mut Rng,
    met: &mut Met,
) -> Result<(), String> {
    expect(rack.is_well_formed(), false)?;
    let records = records(rack, rng);
    for (record, answer) in records
        .iter()
        .zip(hold_foretelling(program, &records, met)?)
    {
        let stated = match ask(record).letter {
            b'Q' | b'A' | b'R' | b'S' | b'N' | b'W' => 17,
            _ => 18,
        };
        expect(number_of(&answer), stated)?;
    }
    Ok(())
}

fn well_formed(rule: u8, program: &Shared) -> Kind {
    let program = program.clone();
    let name = format!("state-well-formed-rule-{rule}");
    Kind::new(name, 20, move |rng, met| {
        let rack = sound(rule, rng);
        expect(rack.is_well_formed(), true)?;
        let answers = hold_foretelling(&program, &records(&rack, rng), met)?;
        expect(answers.iter().any(|answer| number_of(answer) == 17), false)
    })
}

/// Several asks one after another, each of the state that the product gave back before. Some begin
/// with a fresh state.
fn run(rule: u8, program: &Shared) -> Kind {
    let program = program.clone();
    Kind::new(format!("state-run-rule-{rule}"), 2, move |rng, met| {
        let mut state = sound(rule, rng);
        if rng.chance(1, 4) {
            state = Rack::fresh(state.table);
        }
        for _ in 0..rng.between(5, 40) {
            let ask = asks(&state, rng)[0];
            let answers = hold(&program, &[record(&state, ask)], met)?;
            expect(number_of(&answers[0]) == 17, false)?;
            state = rack(&answers[0]);
        }
        Ok(())
    })
}

/// The batch is made anew, or the inhibitions are cleared, before the cards compete.
fn renewing(rule: u8, program: &Shared) -> Kind {
    let program = program.clone();
    Kind::new(format!("state-renewing-rule-{rule}"), 8, move |rng, met| {
        let records = records(&to_be_renewed(rule, rng), rng);
        for (record, answer) in records.iter().zip(hold(&program, &records, met)?) {
            if ask(record).letter == b'A' {
                expect(number_of(&answer), 0)?;
            }
        }
        Ok(())
    })
}

/// One thing that a well-formed state must be is broken.
fn ill_formed((name, fault): Fault, program: &Shared) -> Kind {
    let program = program.clone();
    Kind::new(format!("state-ill-formed-{name}"), 4, move |rng, met| {
        let mut rack = sound(any_rule(rng), rng);
        fault(&mut rack, rng);
        hold_refusing(&rack, &program, rng, met)
    })
}

/// Several faults, of which one may mend another.
fn faults_together(program: &Shared) -> Kind {
    let program = program.clone();
    Kind::new("state-faults-together", 20, move |rng, met| {
        let mut rack = sound(any_rule(rng), rng);
        for _ in 0..rng.between(2, 4) {
            let (_, fault) = *rng.pick(&faults());
            fault(&mut rack, rng);
        }
        hold_foretelling(&program, &records(&rack, rng), met).map(|_| ())
    })
}

/// A few bytes of the state changed, anywhere.
fn spoilt(program: &Shared) -> Kind {
    let program = program.clone();
    Kind::new("state-spoilt", 20, move |rng, met| {
        let mut records = records(&sound(any_rule(rng), rng), rng);
        for record in &mut records {
            for _ in 0..rng.between(1, 3) {
                let at = rng.below(STATE as u64) as usize;
                let any = rng.byte();
                record[at] = *rng.pick(&[0, 1, 255, record[at] ^ 1, record[at] ^ 64, any]);
            }
        }
        hold(&program, &records, met).map(|_| ())
    })
}

fn noisy(program: &Shared) -> Kind {
    let program = program.clone();
    Kind::new("state-of-noise", 4, move |rng, met| {
        let rack = rack(&noise(STATE, rng));
        hold_foretelling(&program, &records(&rack, rng), met).map(|_| ())
    })
}

/// Records of several states, and at the end a part of one.
fn several(rng: &mut Rng) -> (Vec<Vec<u8>>, Vec<u8>) {
    let whole: Vec<Vec<u8>> = (0..rng.between(1, 20))
        .flat_map(|_| records(&sound(any_rule(rng), rng), rng))
        .collect();
    let cut = *rng.pick(&[0, 1, RECORD - 1]);
    let part = whole[0][..cut].to_vec();
    (whole, part)
}

/// The program ends at a record that is cut, and prints nothing for it.
fn in_one_go() -> Kind {
    Kind::new("states-in-one-go", 1, |rng, _| {
        let (whole, part) = several(rng);
        let input = [whole.concat(), part].concat();
        let wanted: Vec<u8> = whole.iter().flat_map(|record| answer(record)).collect();
        same(&input, &rackstate::run(&input)?, &wanted)
    })
}

/// Each record is answered before the next piece goes.
fn in_pieces() -> Kind {
    Kind::new("states-in-pieces", 1, |rng, _| {
        let (whole, part) = several(rng);
        let mut program = rackstate::alone()?;
        for record in &whole {
            let (first, second) = record.split_at(rng.below(RECORD as u64) as usize);
            program.send(first)?;
            program.send(second)?;
            let got = program.answer(answer_length(record))?;
            same(record, &got, &answer(record))?;
        }
        program.send(&part)?;
        expect(program.finish()?, Vec::new())
    })
}

pub fn kinds(program: &Shared) -> Vec<Kind> {
    let mut kinds: Vec<Kind> = (0..=GREATEST_RULE)
        .map(|rule| well_formed(rule, program))
        .collect();
    kinds.extend((0..=GREATEST_RULE).map(|rule| run(rule, program)));
    kinds.extend([3, 4].map(|rule| renewing(rule, program)));
    kinds.push(after_every_winner(program));
    kinds.extend(faults().into_iter().map(|fault| ill_formed(fault, program)));
    kinds.extend([faults_together(program), spoilt(program), noisy(program)]);
    kinds.extend([in_one_go(), in_pieces()]);
    kinds
}
