//! How far the waiting counts of a rack of N cards get in a trace: below N, so that no count is full
//! and 16 never occurs.

use super::met::Met;
use crate::listing::{Session, TRACE_LINE};
use crate::rack::Rack;
use crate::rules::rule;

const BELOW_N: &str = "waiting-count-below-n";

pub fn bounds() -> Vec<String> {
    vec![BELOW_N.to_string()]
}

fn greatest_count(rack: &Rack) -> usize {
    rack.counts.iter().max().copied().unwrap_or(0).into()
}

/// The reference's listing, and the greatest count that its state has after any line of the trace.
pub fn listing_and_count(file: Option<&[u8]>, trace: &[u8]) -> (Vec<u8>, usize) {
    let (mut session, mut printed) = Session::start(file);
    let after_each = trace.chunks(TRACE_LINE).map(|line| {
        printed.extend(session.answer(line));
        greatest_count(session.rack())
    });
    let greatest = after_each.max().unwrap_or(0);
    (printed, greatest)
}

/// A table that is refused leaves no rack. In a rack of one card nobody ever loses, so that N - 1
/// is reached by doing nothing and doesn't count.
pub fn hold(file: &[u8], met_count: usize, met: &mut Met) -> Result<(), String> {
    let (rack, refusal) = Rack::load(file);
    if refusal != 0 {
        return Ok(());
    }
    let cards = rack.table.numbers().len();
    let counts = rule(rack.table.rule).counts;
    let most = if counts { cards - 1 } else { 0 };
    if met_count > most {
        return Err(format!(
            "a waiting count of {met_count} in a rack of {cards} cards, at most {most}"
        ));
    }
    met.stay_within_bound(BELOW_N, counts && cards > 1 && met_count == most);
    Ok(())
}
