//! Requests accepted equal grants plus cards still waiting. The grants are those of the product's
//! report, the requests and the cards that wait those of the product's listing.

use super::expect::expect;
use crate::figures::done_events;
use crate::table::{self, Table};
use crate::waiting::{history, waits, Entry};
use crate::waiting_report::{CARD_LINE, OPENING_LINE};

fn number(digits: &[u8]) -> Result<usize, String> {
    let text = String::from_utf8_lossy(digits);
    text.parse().map_err(|_| format!("{text:?} is no number"))
}

/// How many done events a report says that it counted.
fn events(report: &[u8]) -> Result<usize, String> {
    number(&report[8..13])
}

/// The grants of all cards together.
fn grants(report: &[u8], cards: usize) -> Result<usize, String> {
    let lines = report[OPENING_LINE..].chunks(CARD_LINE).take(cards);
    lines.map(|line| number(&line[6..11])).sum()
}

/// The history up to the first done event that is one too many.
fn beginning(history: &[Entry], events: usize) -> Result<&[Entry], String> {
    let is_done = |&at: &usize| history[at] != Entry::Refused;
    let one_too_many = (0..history.len()).filter(is_done).nth(events);
    let beginning = &history[..one_too_many.unwrap_or(history.len())];
    expect(done_events(beginning), events).map_err(|what| format!("done events listed: {what}"))?;
    Ok(beginning)
}

fn judge(table: &Table, listing: &[u8], report: &[u8]) -> Result<(), String> {
    let history = history(listing, table)?;
    let counted = beginning(&history, events(report)?)?;
    let cards = table.numbers();
    let asked = |entry: &&Entry| matches!(entry, Entry::Asked(_));
    let requests = counted.iter().filter(asked).count();
    let still_waits = |card: &&u8| {
        let waits = waits(counted, **card);
        waits.last().is_some_and(|wait| wait.granted.is_none())
    };
    let still_waiting = cards.iter().filter(still_waits).count();
    expect(requests, grants(report, cards.len())? + still_waiting)
        .map_err(|what| format!("requests accepted: {what}"))
}

/// A refused table leaves nothing to count.
pub fn hold(file: Option<&[u8]>, listing: &[u8], report: &[u8]) -> Result<(), String> {
    match table::load(file.unwrap_or(&[])) {
        Ok(table) => judge(&table, listing, report),
        Err(_) => Ok(()),
    }
}

#[cfg(test)]
mod tests {
    use super::judge;
    use crate::table::Table;

    /// Both cards ask, card 2 is granted, and a request is refused.
    const LISTING: &[u8] = b"\
Q 01 00 00 0000 00 00
Q 02 00 00 0000 00 00
A 00 00 02 0002 02 01
Q 01 12 00 0000 00 00
";

    fn judged(listing: &[u8], events: u32, grants: [u32; 2]) -> Result<(), String> {
        let mut table = Table::NONE;
        (table.slots[1], table.slots[2]) = (1, 2);
        let line = |grants| format!("00 00 {grants:05}{:50}\n", "");
        let lines = grants.map(line).concat();
        let report = format!("end. 00 {events:05}\n{lines}");
        judge(&table, listing, report.as_bytes())
    }

    #[test]
    fn two_requests_are_one_grant_and_one_card_that_waits() {
        assert_eq!(judged(LISTING, 3, [0, 1]), Ok(()));
        assert!(judged(LISTING, 3, [0, 0]).is_err());
        assert!(judged(LISTING, 3, [0, 2]).is_err());
        assert!(judged(LISTING, 3, [1, 1]).is_err());
    }

    #[test]
    fn no_more_than_the_reported_events_are_looked_at() {
        assert_eq!(judged(LISTING, 2, [0, 0]), Ok(()));
        assert!(judged(LISTING, 2, [0, 1]).is_err());
        assert_eq!(judged(LISTING, 0, [0, 0]), Ok(()));
        assert!(judged(LISTING, 4, [0, 1]).is_err());
        assert_eq!(judged(&[], 0, [0, 0]), Ok(()));
    }
}
