//! The text of the waiting report, from a table file and a trace.

use crate::figures::{counted, done_events, figures, square, Figures};
use crate::listing::{listing, LISTING_LINE};
use crate::table::{self, Table};
use crate::waiting::{history, waits, Entry};

pub const OPENING_LINE: usize = 14;
pub const CARD_LINE: usize = 62;

/// Why the counting ended.
const TRACE_ENDED: u32 = 0;
const LINE_MALFORMED: u32 = 18;
const EVENTS_FULL: u32 = 31;

fn opening_line(first: &str, number: u32, events: usize) -> String {
    format!("{first} {number:02} {events:05}\n")
}

fn card_line(slot: u8, card: u8, figures: Figures) -> String {
    let Figures {
        grants,
        sum,
        squares,
        variance: (above, below),
    } = figures;
    let mean = format!("{sum:05}/{grants:05}");
    let variance = format!("{above:015}/{below:010}");
    format!("{slot:02} {card:02} {grants:05} {mean} {squares:010} {variance}\n")
}

fn square_line(card: u8, row: &[u64]) -> String {
    let entries: String = row.iter().map(|count| format!(" {count:05}")).collect();
    format!("{card:02}{entries}\n")
}

/// A listing has as many lines as it has entries, and one more where it ended at a malformed line.
fn ends_malformed(listing: &[u8], entries: usize) -> bool {
    listing.len() / LISTING_LINE > entries
}

/// Whatever comes after the last event that is counted ends the counting, if it is an event.
fn ending(listing: &[u8], history: &[Entry]) -> u32 {
    if counted(history).len() < history.len() {
        EVENTS_FULL
    } else if ends_malformed(listing, history.len()) {
        LINE_MALFORMED
    } else {
        TRACE_ENDED
    }
}

/// The lines before the square, and those of the square.
fn report(table: &Table, listing: &[u8]) -> (String, String) {
    let whole = history(listing, table).expect("the listing of this table");
    let counted = counted(&whole);
    let cards = table.numbers();
    let mut text = opening_line("end.", ending(listing, &whole), done_events(counted));
    text.extend(cards.iter().map(|&card| {
        let slot = table.slots[usize::from(card)];
        card_line(slot, card, figures(&waits(counted, card)))
    }));
    let rows = cards.iter().zip(square(counted, &cards));
    let square = rows.map(|(&card, row)| square_line(card, &row)).collect();
    (text, square)
}

/// The whole report of a table file (nothing if it can't be opened) and a trace, without its square
/// and with it.
pub fn texts(file: Option<&[u8]>, trace: &[u8]) -> [Vec<u8>; 2] {
    let (text, square) = match table::load(file.unwrap_or(&[])) {
        Err(refusal) => (opening_line("tab.", refusal, 0), String::new()),
        Ok(table) => report(&table, &listing(file, trace)),
    };
    [text.clone(), text + &square].map(String::into_bytes)
}

#[cfg(test)]
mod tests {
    use super::{card_line, ending, opening_line, square_line, texts, CARD_LINE, OPENING_LINE};
    use crate::figures::{Figures, MOST_EVENTS};
    use crate::listing::LISTING_LINE;
    use crate::waiting::Entry::{self, Asked, Refused};

    #[test]
    fn lines_of_fixed_width() {
        let figures = Figures {
            grants: 65_535,
            sum: 65_534,
            squares: 4_294_836_225,
            variance: (999_999_999_999_999, 65_535 * 65_535),
        };
        let line = "63 07 65535 65534/65535 4294836225 999999999999999/4294836225\n";
        assert_eq!(card_line(63, 7, figures), line);
        assert_eq!(line.len(), CARD_LINE);
        assert_eq!(opening_line("end.", 31, MOST_EVENTS), "end. 31 65535\n");
        assert_eq!(opening_line("tab.", 3, 0).len(), OPENING_LINE);
        assert_eq!(square_line(9, &[0, 65_535]), "09 00000 65535\n");
    }

    /// The ending of so many done events with this after them.
    fn ending_after(events: usize, after: &[Entry], malformed: usize) -> u32 {
        let history = [&vec![Asked(1); events], after].concat();
        ending(
            &vec![0; LISTING_LINE * (history.len() + malformed)],
            &history,
        )
    }

    #[test]
    fn each_ending() {
        assert_eq!(ending_after(0, &[], 0), 0);
        assert_eq!(ending_after(0, &[], 1), 18);
        assert_eq!(ending_after(MOST_EVENTS, &[], 0), 0);
        assert_eq!(ending_after(MOST_EVENTS, &[], 1), 18);
        assert_eq!(ending_after(MOST_EVENTS, &[Asked(1)], 0), 31);
        assert_eq!(ending_after(MOST_EVENTS, &[Refused], 0), 31);
        assert_eq!(ending_after(MOST_EVENTS, &[Refused], 1), 31);
        assert_eq!(ending_after(MOST_EVENTS - 1, &[Refused, Asked(1)], 0), 0);
    }

    #[test]
    fn a_refused_table_is_all_there_is() {
        assert_eq!(texts(None, b"Q 02\n"), [b"tab. 01 00000\n"; 2]);
        assert_eq!(texts(Some(&[7; 12]), b""), [b"tab. 02 00000\n"; 2]);
    }
}
