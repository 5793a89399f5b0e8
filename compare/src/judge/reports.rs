//! Generated traces through `rackreport`.

use super::accepted_requests;
use super::damage::damaged;
use super::draft::any_rule;
use super::expect::shown;
use super::kind::Kind;
use super::met::Met;
use super::trace_maker::{
    asks_again, blind, crowded, electing, full_table_file, mixed, renewing, saturated, table_file,
    Maker,
};
use crate::figures::MOST_EVENTS;
use crate::rackreport;
use crate::racktrace;
use crate::rng::Rng;
use crate::rules::GREATEST_RULE;
use crate::waiting_report::texts;

/// Two runs of the program, one with the square, against the reference's texts.
pub fn hold(file: Option<&[u8]>, trace: &[u8], met: &mut Met) -> Result<(), String> {
    agreed(file, trace, met).map(|_| ())
}

/// The report that both give, with its square.
pub fn agreed(file: Option<&[u8]>, trace: &[u8], met: &mut Met) -> Result<Vec<u8>, String> {
    hold_all(file, trace, met).map_err(|what| {
        let (file, trace) = (shown(file.unwrap_or(&[])), shown(trace));
        format!("{what}; table of {file}; trace of {trace}")
    })
}

/// The report with its square begins with the report without it, so that the requests are counted
/// against one of them.
fn hold_all(file: Option<&[u8]>, trace: &[u8], met: &mut Met) -> Result<Vec<u8>, String> {
    let plain = rackreport::begin(file, trace, false)?;
    let with_square = rackreport::begin(file, trace, true)?;
    let listing = racktrace::begin(file, trace)?;
    let wanted = texts(file, trace);
    same(&plain.printed()?, &wanted[0])?;
    let printed = with_square.printed()?;
    same(&printed, &wanted[1])?;
    met.meet(number_of(&printed));
    accepted_requests::hold(file, &listing.printed()?, &printed)?;
    Ok(printed)
}

/// The number in the opening line of a report that agrees with the reference's.
fn number_of(printed: &[u8]) -> u32 {
    u32::from(printed[5] - b'0') * 10 + u32::from(printed[6] - b'0')
}

pub fn same(printed: &[u8], expected: &[u8]) -> Result<(), String> {
    let mut got = printed.split_inclusive(|&byte| byte == b'\n');
    let mut wanted = expected.split_inclusive(|&byte| byte == b'\n');
    for number in 1.. {
        let (got, wanted) = (got.next(), wanted.next());
        if got != wanted {
            let (got, wanted) = (shown_line(got), shown_line(wanted));
            return Err(format!("line {number} is {got}, expected {wanted}"));
        }
        if got.is_none() {
            break;
        }
    }
    Ok(())
}

fn shown_line(line: Option<&[u8]>) -> String {
    match line {
        Some(bytes) => format!("{:?}", String::from_utf8_lossy(bytes)),
        None => "missing".to_string(),
    }
}

type MakeTrace = fn(&[u8], usize, &mut Rng) -> Vec<u8>;

fn short(rng: &mut Rng) -> usize {
    rng.between(1, 200) as usize
}

fn with_rule(name: &str, weight: u64, make: MakeTrace) -> Vec<Kind> {
    (0..=GREATEST_RULE)
        .map(|rule| {
            let name = format!("report-{name}-rule-{rule}");
            Kind::new(name, weight, move |rng, met| {
                let file = table_file(rule, rng);
                let trace = make(&file, short(rng), rng);
                hold(Some(&file), &trace, met)
            })
        })
        .collect()
}

fn full_rack() -> Vec<Kind> {
    (0..=GREATEST_RULE)
        .map(|rule| {
            let name = format!("report-63-cards-rule-{rule}");
            Kind::new(name, 5, move |rng, met| {
                let file = full_table_file(rule, rng);
                let make = *rng.pick(&[mixed as MakeTrace, saturated, electing, crowded]);
                let trace = make(&file, rng.between(100, 1500) as usize, rng);
                hold(Some(&file), &trace, met)
            })
        })
        .collect()
}

fn renewals() -> Vec<Kind> {
    [3, 4]
        .map(|rule| {
            let name = format!("report-renewing-rule-{rule}");
            Kind::new(name, 10, move |rng, met| {
                let file = table_file(rule, rng);
                let trace = renewing(&file, rng.between(2, 20), rng);
                hold(Some(&file), &trace, met)
            })
        })
        .into()
}

/// About as many done events as are counted, some refused ones among them, then a few lines of any
/// sort. Now and then the last one is cut.
fn around_the_limit(rng: &mut Rng) -> (Vec<u8>, Vec<u8>) {
    let file = table_file(any_rule(rng), rng);
    let mut maker = Maker::new(&file);
    let events = MOST_EVENTS - rng.below(3) as usize;
    while maker.done_events() < events {
        match rng.chance(1, 50) {
            true => maker.anything(rng),
            false => maker.sensible(rng),
        }
    }
    for _ in 0..rng.below(4) {
        maker.anything(rng);
    }
    let mut trace = maker.trace();
    trace.truncate(trace.len() - *rng.pick(&[0, 0, 0, 2]));
    (file, trace)
}

fn long() -> Vec<Kind> {
    vec![
        Kind::new("report-long", 1, |rng, met| {
            let file = table_file(any_rule(rng), rng);
            let make = *rng.pick(&[mixed as MakeTrace, saturated, electing, crowded, blind]);
            let trace = make(&file, rng.between(20_000, 60_000) as usize, rng);
            hold(Some(&file), &trace, met)
        }),
        Kind::new("report-around-the-limit", 2, |rng, met| {
            let (file, trace) = around_the_limit(rng);
            hold(Some(&file), &trace, met)
        }),
    ]
}

fn any_trace(rng: &mut Rng) -> (Vec<u8>, Vec<u8>) {
    let file = table_file(any_rule(rng), rng);
    let trace = mixed(&file, short(rng), rng);
    (file, trace)
}

fn damaged_traces() -> Vec<Kind> {
    vec![
        Kind::new("report-of-a-cut-trace", 5, |rng, met| {
            let (file, mut trace) = any_trace(rng);
            trace.truncate(trace.len() - rng.between(1, 4) as usize);
            hold(Some(&file), &trace, met)
        }),
        Kind::new("report-of-a-spoilt-trace", 10, |rng, met| {
            let (file, mut trace) = any_trace(rng);
            let at = rng.below(trace.len() as u64) as usize;
            let any = rng.byte();
            trace[at] = *rng.pick(&[b'\r', b'\n', b' ', 0, b'0', b'9', b'a', any]);
            hold(Some(&file), &trace, met)
        }),
    ]
}

fn refused_tables() -> Vec<Kind> {
    (1..=7)
        .map(|fault| {
            Kind::new(format!("report-with-table-{fault}"), 2, move |rng, met| {
                let file = damaged(&[fault], rng);
                let trace = blind(&[], short(rng), rng);
                hold(Some(&file), &trace, met)
            })
        })
        .collect()
}

pub fn kinds() -> Vec<Kind> {
    let mut kinds = with_rule("mixed", 20, mixed);
    kinds.extend(with_rule("blind", 5, blind));
    kinds.extend(with_rule("saturated", 10, saturated));
    kinds.extend(with_rule("electing", 10, electing));
    kinds.extend(with_rule("asks-again", 10, asks_again));
    kinds.extend(with_rule("crowded", 20, crowded));
    kinds.extend(full_rack());
    kinds.extend(renewals());
    kinds.extend(long());
    kinds.extend(damaged_traces());
    kinds.extend(refused_tables());
    kinds
}
