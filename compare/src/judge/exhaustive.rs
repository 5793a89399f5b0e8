//! Small worlds, every member of them.

use super::copies;
use super::expect::expect;
use super::guarded::agreed;
use super::kind::Kind;
use super::met::Met;
use super::named_tables::WORKED_TABLE;
use super::stage_bounds;
use super::traces::hold;
use crate::entries;
use crate::rng::Rng;
use crate::seen_from_c::{self, settled};

/// The numbers settle from every start, and always to the same lines.
fn from_every_start(m: u32, numbers: &[u16], rng: &mut Rng, met: &mut Met) -> Result<(), String> {
    let competing = seen_from_c::bytes(numbers);
    let mut all_lines = Vec::new();
    for start in 0..1 << m {
        let (answer, buffer) = agreed(
            2 * (m as usize + 1),
            rng,
            |buffer| entries::settle(m, &competing, buffer, start),
            |buffer| seen_from_c::settle(m, &competing, buffer, start),
        )
        .map_err(|what| format!("numbers {numbers:?} from {start}: {what}"))?;
        let done = settled(answer).map_err(|n| format!("numbers {numbers:?} give {n}"))?;
        stage_bounds::hold(m, numbers, done.t, met)?;
        copies::hold_list(m, numbers, done.copies, met)?;
        all_lines.push(seen_from_c::numbers(&buffer)[done.t as usize]);
    }
    expect(all_lines.iter().all(|lines| *lines == all_lines[0]), true)
        .map_err(|_| format!("numbers {numbers:?} settle to {all_lines:?}"))
}

fn every_set_of_numbers(m: u32) -> Kind {
    Kind::new(format!("every-set-of-numbers-m-{m}"), 1, move |rng, met| {
        let numbers = 1u32 << m;
        for set in 0..1u64 << numbers {
            let chosen: Vec<u16> = (0..numbers as u16).filter(|i| set >> i & 1 == 1).collect();
            from_every_start(m, &chosen, rng, met)?;
        }
        Ok(())
    })
}

/// Every list of so many numbers, in which a number may come again.
fn every_list(m: u32, length: u32) -> Kind {
    let name = format!("every-list-of-{length}-numbers-m-{m}");
    Kind::new(name, 1, move |rng, met| {
        let number = |list: u32, place: u32| (list >> (m * place) & ((1 << m) - 1)) as u16;
        for list in 0..1u32 << (m * length) {
            let numbers: Vec<u16> = (0..length).map(|place| number(list, place)).collect();
            from_every_start(m, &numbers, rng, met)?;
        }
        Ok(())
    })
}

/// Every value in one place of the worked table.
fn every_byte_of_a_table(at: usize) -> Kind {
    Kind::named(format!("every-value-of-table-byte-{at}"), move |met| {
        for value in 0..=255 {
            let mut file = WORKED_TABLE;
            file[at] = value;
            same_check(&file, met)?;
        }
        Ok(())
    })
}

/// Every value of a field of two bytes in the worked table.
fn every_word_of_a_table(at: usize) -> Kind {
    Kind::named(format!("every-value-of-table-field-{at}"), move |met| {
        for value in 0..=u16::MAX {
            let mut file = WORKED_TABLE;
            file[at..at + 2].copy_from_slice(&value.to_le_bytes());
            same_check(&file, met)?;
        }
        Ok(())
    })
}

fn same_check(file: &[u8], met: &mut Met) -> Result<(), String> {
    let (answer, expected) = (entries::check(file), seen_from_c::check(file));
    if answer != expected {
        return Err(format!("{file:?} gives {answer}, expected {expected}"));
    }
    met.meet(answer);
    Ok(())
}

fn every_prefix_of_a_table() -> Kind {
    Kind::named("every-prefix-of-a-table", |met| {
        (0..WORKED_TABLE.len()).try_for_each(|end| same_check(&WORKED_TABLE[..end], met))
    })
}

/// Every value in one place of a trace line, with a good line before and after it.
fn every_byte_of_a_line(line: &'static [u8; 5], at: usize) -> Kind {
    let letter = line[0] as char;
    Kind::named(format!("every-byte-{at}-of-a-line-{letter}"), move |met| {
        for value in 0..=255 {
            let mut spoilt = *line;
            spoilt[at] = value;
            let trace = [*b"Q 05\n", spoilt, *b"Q 06\n"].concat();
            hold(Some(&WORKED_TABLE), &trace, met).map_err(|what| format!("{value}: {what}"))?;
        }
        Ok(())
    })
}

pub fn kinds() -> Vec<Kind> {
    let mut kinds: Vec<Kind> = (1..=4).map(every_set_of_numbers).collect();
    for m in 1..=3 {
        kinds.extend((2..=4).map(|length| every_list(m, length)));
    }
    kinds.extend((0..WORKED_TABLE.len()).map(every_byte_of_a_table));
    kinds.extend([0, 6, 8, 10].map(every_word_of_a_table));
    kinds.push(every_prefix_of_a_table());
    for line in [b"Q 02\n", b"A 00\n", b"R 05\n"] {
        kinds.extend((0..5).map(|at| every_byte_of_a_line(line, at)));
    }
    kinds
}
