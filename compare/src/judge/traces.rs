//! Generated traces through `racktrace`.

use super::conversation::converse;
use super::copies;
use super::damage::damaged;
use super::draft::{any_rule, Draft, Shape};
use super::expect::shown;
use super::guarded::noise;
use super::kind::Kind;
use super::met::Met;
use super::trace_maker::{
    asks_again, blind, electing, full_table_file, mixed, renewing, saturated, table_file,
};
use super::waiting_counts;
use crate::listing::{LISTING_LINE, TRACE_LINE};
use crate::racktrace;
use crate::rng::Rng;
use crate::rules::GREATEST_RULE;
use crate::table::LONGEST_FILE;

/// No loser's count is full in a run from a fresh state.
const NEVER_LISTED: u32 = 16;

/// One run of the program against the reference's listing.
pub fn hold(file: Option<&[u8]>, trace: &[u8], met: &mut Met) -> Result<(), String> {
    let run = racktrace::begin(file, trace)?;
    let (expected, greatest_count) = waiting_counts::listing_and_count(file, trace);
    let printed = run.printed()?;
    same(&printed, &expected)
        .and_then(|()| meet_all(&printed, met))
        .and_then(|()| waiting_counts::hold(file.unwrap_or(&[]), greatest_count, met))
        .map_err(|what| {
            let (file, trace) = (shown(file.unwrap_or(&[])), shown(trace));
            format!("{what}; table of {file}; trace of {trace}")
        })
}

pub fn same(printed: &[u8], expected: &[u8]) -> Result<(), String> {
    let mut got = printed.chunks(LISTING_LINE);
    let mut wanted = expected.chunks(LISTING_LINE);
    for number in 1.. {
        let (got, wanted) = (got.next(), wanted.next());
        if got != wanted {
            let (got, wanted) = (shown_line(got), shown_line(wanted));
            return Err(format!("line {number} is {got}, expected {wanted}"));
        }
        if got.is_none() {
            break;
        }
    }
    Ok(())
}

fn shown_line(line: Option<&[u8]>) -> String {
    match line {
        Some(bytes) => format!("{:?}", String::from_utf8_lossy(bytes)),
        None => "missing".to_string(),
    }
}

/// Counts the answers of a listing that agrees with the reference's.
pub fn meet_all(printed: &[u8], met: &mut Met) -> Result<(), String> {
    for line in printed.chunks(LISTING_LINE) {
        let answer = u32::from(line[5] - b'0') * 10 + u32::from(line[6] - b'0');
        if answer == NEVER_LISTED {
            let line = shown_line(Some(line));
            return Err(format!("{line} answers {NEVER_LISTED}"));
        }
        copies::hold_line(line)?;
        met.meet(answer);
    }
    Ok(())
}

type MakeTrace = fn(&[u8], usize, &mut Rng) -> Vec<u8>;

fn short(rng: &mut Rng) -> usize {
    rng.between(1, 120) as usize
}

fn with_rule(name: &str, weight: u64, make: MakeTrace) -> Vec<Kind> {
    (0..=GREATEST_RULE)
        .map(|rule| {
            Kind::new(
                format!("trace-{name}-rule-{rule}"),
                weight,
                move |rng, met| {
                    let file = table_file(rule, rng);
                    let trace = make(&file, short(rng), rng);
                    hold(Some(&file), &trace, met)
                },
            )
        })
        .collect()
}

fn full_rack() -> Vec<Kind> {
    (0..=GREATEST_RULE)
        .map(|rule| {
            Kind::new(format!("trace-63-cards-rule-{rule}"), 5, move |rng, met| {
                let file = full_table_file(rule, rng);
                let make = *rng.pick(&[mixed as MakeTrace, saturated, electing]);
                let lines = rng.between(100, 600) as usize;
                let trace = make(&file, lines, rng);
                hold(Some(&file), &trace, met)
            })
        })
        .collect()
}

/// Batch follows batch under rule 3, and the inhibitions are cleared again and again under rule 4.
fn renewals() -> Vec<Kind> {
    [3, 4]
        .map(|rule| {
            Kind::new(
                format!("trace-renewing-rule-{rule}"),
                15,
                move |rng, met| {
                    let file = match rng.chance(1, 10) {
                        true => full_table_file(rule, rng),
                        false => table_file(rule, rng),
                    };
                    let trace = renewing(&file, rng.between(2, 20), rng);
                    hold(Some(&file), &trace, met)
                },
            )
        })
        .into()
}

/// Some hundred thousand bytes.
fn long() -> Kind {
    Kind::new("trace-long", 1, |rng, met| {
        let file = table_file(any_rule(rng), rng);
        let make = *rng.pick(&[mixed as MakeTrace, saturated, electing, blind]);
        let lines = rng.between(20_000, 60_000) as usize;
        let mut trace = make(&file, lines, rng);
        trace.truncate(trace.len() - *rng.pick(&[0, 0, 1, 4]));
        hold(Some(&file), &trace, met)
    })
}

fn any_trace(rng: &mut Rng) -> (Vec<u8>, Vec<u8>) {
    let file = table_file(any_rule(rng), rng);
    let trace = mixed(&file, short(rng), rng);
    (file, trace)
}

/// The last line is incomplete.
fn cut() -> Kind {
    Kind::new("trace-cut", 5, |rng, met| {
        let (file, mut trace) = any_trace(rng);
        trace.truncate(trace.len() - rng.between(1, 4) as usize);
        hold(Some(&file), &trace, met)
    })
}

/// One byte changed, lost or put in, anywhere.
fn spoilt() -> Kind {
    Kind::new("trace-spoilt", 10, |rng, met| {
        let (file, mut trace) = any_trace(rng);
        let at = rng.below(trace.len() as u64) as usize;
        let any = rng.byte();
        let byte = *rng.pick(&[b'\r', b'\n', b' ', 0, b'0', b'9', b'a', any]);
        match rng.below(3) {
            0 => trace[at] = byte,
            1 => trace.insert(at, byte),
            _ => {
                trace.remove(at);
            }
        }
        hold(Some(&file), &trace, met)
    })
}

fn refused_tables() -> Vec<Kind> {
    let mut kinds: Vec<Kind> = (1..=7)
        .map(|fault| {
            Kind::new(format!("trace-with-table-{fault}"), 4, move |rng, met| {
                let file = damaged(&[fault], rng);
                let trace = blind(&[], short(rng), rng);
                hold(Some(&file), &trace, met)
            })
        })
        .collect();
    for (name, file) in [("no", None), ("an-empty", Some(&[][..]))] {
        kinds.push(Kind::new(
            format!("trace-with-{name}-table"),
            2,
            move |rng, met| {
                let trace = blind(&[], short(rng), rng);
                hold(file, &trace, met)
            },
        ));
    }
    kinds
}

/// The longest table, and the same with a byte more that a short read would not see.
fn long_tables() -> Vec<Kind> {
    [0, 1, 1000]
        .map(|more| {
            let name = format!("trace-with-table-of-{}-bytes", LONGEST_FILE + more);
            Kind::new(name, 2, move |rng, met| {
                let mut shape = Shape::sound(rng);
                shape.gaps[1] += LONGEST_FILE - shape.file_length();
                let mut file = Draft::of(shape, rng).file(rng);
                let trace = mixed(&file, short(rng), rng);
                file.extend(noise(more, rng));
                hold(Some(&file), &trace, met)
            })
        })
        .into()
}

fn spoil_a_byte(trace: &mut [u8], rng: &mut Rng) {
    let at = rng.below(trace.len() as u64) as usize;
    trace[at] = rng.byte();
}

fn conversations() -> Vec<Kind> {
    vec![
        Kind::new("conversation-sound", 8, |rng, met| {
            let (file, trace) = any_trace(rng);
            converse(&file, &trace, || TRACE_LINE, met)
        }),
        Kind::new("conversation-spoilt", 4, |rng, met| {
            let (file, mut trace) = any_trace(rng);
            spoil_a_byte(&mut trace, rng);
            converse(&file, &trace, || TRACE_LINE, met)
        }),
        Kind::new("conversation-in-pieces", 8, |rng, met| {
            let (file, mut trace) = any_trace(rng);
            trace.truncate(trace.len() - rng.below(5) as usize);
            converse(&file, &trace, || rng.between(1, 12) as usize, met)
        }),
        Kind::new("conversation-refused-table", 4, |rng, met| {
            let file = damaged(&[rng.between(1, 7) as u32], rng);
            converse(&file, b"Q 01\n", || TRACE_LINE, met)
        }),
    ]
}

pub fn kinds() -> Vec<Kind> {
    let mut kinds = with_rule("mixed", 25, mixed);
    kinds.extend(with_rule("blind", 10, blind));
    kinds.extend(with_rule("saturated", 15, saturated));
    kinds.extend(with_rule("electing", 15, electing));
    kinds.extend(with_rule("asks-again", 10, asks_again));
    kinds.extend(full_rack());
    kinds.extend(renewals());
    kinds.extend(refused_tables());
    kinds.extend(long_tables());
    kinds.extend(conversations());
    kinds.extend([cut(), spoilt(), long()]);
    kinds
}
