//! The waits of one card, searched for in the whole history that a listing tells.
//!
//! No state of the rack is kept or replayed here: an ask, its grant and the grants in between
//! are found by their places in the history. An election is a grant.

use crate::listing::{self, LISTING_LINE};
use crate::rack::Event;
use crate::table::Table;

/// What one line of a listing tells. Its place in the history gives its line.
#[derive(Clone, Copy, Debug, PartialEq, Eq)]
pub enum Entry {
    Asked(u8),
    /// Granted the bus, or elected to follow.
    Granted(u8),
    Released(u8),
    Refused,
}

impl Entry {
    fn fits(self, table: &Table) -> bool {
        match self {
            Entry::Asked(card) | Entry::Granted(card) | Entry::Released(card) => table.has(card),
            Entry::Refused => true,
        }
    }
}

#[derive(Clone, Debug, PartialEq, Eq)]
pub struct Wait {
    /// Lines are counted from 1.
    pub asked: usize,
    /// Nothing if the wait is not over at the end.
    pub granted: Option<usize>,
    /// The other cards granted in between, in the order of their grants.
    pub others: Vec<u8>,
}

fn number(digits: &[u8]) -> Option<u16> {
    digits.iter().try_fold(0, |value, digit| {
        digit
            .is_ascii_digit()
            .then(|| 10 * value + u16::from(digit - b'0'))
    })
}

/// What stands in the event's place, then answer, winner, lines, stages and copies.
fn fields(line: &[u8]) -> Option<(&[u8], [u16; 5])> {
    let has_the_form = line.len() == LISTING_LINE
        && line.ends_with(b"\n")
        && [4, 7, 10, 15, 18].iter().all(|&at| line[at] == b' ');
    if !has_the_form {
        return None;
    }
    let numbers = [
        number(&line[5..7])?,
        number(&line[8..10])?,
        number(&line[11..15])?,
        number(&line[16..18])?,
        number(&line[19..21])?,
    ];
    Some((&line[..4], numbers))
}

/// Nothing if no event can be answered so.
fn entry(line: &[u8]) -> Option<Entry> {
    let (first, numbers) = fields(line)?;
    let event = listing::event(&[first, b"\n"].concat())?;
    match (event, numbers) {
        (Event::Request(card), [0, 0, 0, 0, 0]) => Some(Entry::Asked(card)),
        (Event::Release(card), [0, 0, 0, 0, 0]) => Some(Entry::Released(card)),
        (Event::Arbitrate, [0, winner, _, _, 1]) => u8::try_from(winner).ok().map(Entry::Granted),
        (_, [11..=17, 0, 0, 0, 0]) => Some(Entry::Refused),
        _ => None,
    }
}

/// A refused table or a malformed trace line, after which the rack prints no more.
fn is_ending(line: &[u8]) -> bool {
    matches!(
        fields(line),
        Some((b"tab.", [1..=7, 0, 0, 0, 0]) | (b"----", [18, 0, 0, 0, 0]))
    )
}

/// The entries of a listing, or which line is none or has a card outside the table.
/// Whether an event can follow those before it is not judged.
pub fn history(listing: &[u8], table: &Table) -> Result<Vec<Entry>, String> {
    let mut lines: Vec<&[u8]> = listing.split_inclusive(|&byte| byte == b'\n').collect();
    if lines.last().is_some_and(|line| is_ending(line)) {
        lines.pop();
    }
    let entries = lines.iter().zip(1..).map(|(line, count)| {
        entry(line)
            .filter(|entry| entry.fits(table))
            .ok_or_else(|| format!("line {count} is no listing line of this rack"))
    });
    entries.collect()
}

fn wait_from(ask: usize, history: &[Entry], card: u8) -> Wait {
    let grant = (ask..history.len()).find(|&at| history[at] == Entry::Granted(card));
    let between = &history[ask..grant.unwrap_or(history.len())];
    let others = between.iter().filter_map(|entry| match entry {
        Entry::Granted(other) => Some(*other),
        _ => None,
    });
    Wait {
        asked: ask + 1,
        granted: grant.map(|at| at + 1),
        others: others.collect(),
    }
}

/// Every wait of a card, in the order of its asks.
pub fn waits(history: &[Entry], card: u8) -> Vec<Wait> {
    (0..history.len())
        .filter(|&at| history[at] == Entry::Asked(card))
        .map(|ask| wait_from(ask, history, card))
        .collect()
}

fn row(wait: &Wait, table: &Table) -> String {
    let granted = wait
        .granted
        .map_or("-".to_string(), |line| line.to_string());
    let others: String = wait
        .others
        .iter()
        .map(|&card| format!(" {}:{card}", table.slots[usize::from(card)]))
        .collect();
    format!("asked {} granted {granted} others{others}\n", wait.asked)
}

/// A row for each wait of the card in a slot, then the longest wait in grants to others.
pub fn rows(slot: u8, table: &Table, listing: &[u8]) -> Result<String, String> {
    let card = table
        .numbers()
        .into_iter()
        .find(|&card| table.slots[usize::from(card)] == slot)
        .ok_or_else(|| format!("no card in slot {slot}"))?;
    let waits = waits(&history(listing, table)?, card);
    let longest = waits.iter().map(|wait| wait.others.len()).max();
    let each: String = waits.iter().map(|wait| row(wait, table)).collect();
    Ok(format!("{each}longest {}\n", longest.unwrap_or(0)))
}

#[cfg(test)]
mod tests {
    use super::rows;
    use crate::judge::named_tables::WORKED_TABLE;
    use crate::judge::named_traces::WORKED_LISTING as WORKED;
    use crate::table::{self, Table};

    /// Numbers 2, 5 and 6 in slots 1, 2 and 3.
    fn worked_table() -> Table {
        table::load(&WORKED_TABLE).expect("the worked table is accepted")
    }

    fn rows_of(slot: u8, listing: &str) -> Result<String, String> {
        rows(slot, &worked_table(), listing.as_bytes())
    }

    fn first_lines(count: usize) -> String {
        WORKED.split_inclusive('\n').take(count).collect()
    }

    #[test]
    fn the_worked_listing() {
        let slot_1 = "asked 1 granted 9 others 3:6 2:5\nlongest 2\n";
        let slot_2 = "asked 2 granted 6 others 3:6\nlongest 1\n";
        let slot_3 = "asked 3 granted 4 others\nasked 5 granted 11 others 2:5 1:2\nlongest 2\n";
        assert_eq!(rows_of(1, WORKED).as_deref(), Ok(slot_1));
        assert_eq!(rows_of(2, WORKED).as_deref(), Ok(slot_2));
        assert_eq!(rows_of(3, WORKED).as_deref(), Ok(slot_3));
    }

    #[test]
    fn a_wait_that_is_not_over() {
        let rows = "asked 1 granted - others 3:6 2:5\nlongest 2\n";
        assert_eq!(rows_of(1, &first_lines(8)).as_deref(), Ok(rows));
    }

    #[test]
    fn a_refused_request_is_no_ask() {
        let listing = first_lines(3) + "Q 05 12 00 0000 00 00\n";
        let rows = "asked 2 granted - others\nlongest 0\n";
        assert_eq!(rows_of(2, &listing).as_deref(), Ok(rows));
    }

    #[test]
    fn an_ending_is_passed_over_only_at_the_end() {
        let malformed = "---- 18 00 0000 00 00\n";
        let refused = "tab. 07 00 0000 00 00\n";
        assert_eq!(rows_of(1, "").as_deref(), Ok("longest 0\n"));
        assert_eq!(rows_of(1, refused).as_deref(), Ok("longest 0\n"));
        assert_eq!(
            rows_of(1, &(WORKED.to_string() + malformed)),
            rows_of(1, WORKED)
        );
        assert!(rows_of(1, &(malformed.to_string() + WORKED)).is_err());
    }

    #[test]
    fn bad_input() {
        assert!(rows_of(0, WORKED).is_err());
        assert!(rows_of(4, WORKED).is_err());
        let bad_lines = [
            "\n",
            "Q 02 00 00 0000 00 00",
            "Q 02 00 00 0000 00 00 \n",
            "Q 02 00 00 0000 00 0x\n",
            "Q 02 00 00 0000 00\n",
            "Q 02 00 00 0000 00-00\n",
            "Q 02 00 00 0000 00 01\n",
            "Q-02 00 00 0000 00 00\n",
            "Q 02 00 02 0000 00 00\n",
            "Q 02 18 00 0000 00 00\n",
            "Q 03 00 00 0000 00 00\n",
            "A 00 00 00 0000 00 01\n",
            "A 00 00 03 0003 01 01\n",
            "A 00 00 06 0006 01 00\n",
            "A 00 00 06 0006 01 02\n",
            "A 00 14 00 0000 00 01\n",
        ];
        for bad in bad_lines {
            let message = "line 3 is no listing line of this rack".to_string();
            assert_eq!(rows_of(1, &(first_lines(2) + bad)), Err(message), "{bad:?}");
        }
    }
}
