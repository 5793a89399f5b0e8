//! How many entries of a list equal the settled lines, as the product says it: judged in other words
//! than the reference's, and from the product's answers alone.

use super::expect::{expect, shown};
use super::met::Met;
use crate::seen_as_bytes::{ask, number_of, COPIES};
use crate::settling::{MOST_COMPETITORS, MOST_LINES};

fn name(m: u32) -> String {
    format!("copies-in-a-full-list-m-{m:02}")
}

pub fn bounds() -> Vec<String> {
    (1..=MOST_LINES).map(name).collect()
}

/// As many as there are of the greatest number, from any start.
pub fn hold_list(m: u32, numbers: &[u16], copies: u32, met: &mut Met) -> Result<(), String> {
    let greatest = numbers.iter().max();
    let equal = numbers.iter().filter(|&number| Some(number) == greatest);
    expect(copies, equal.count() as u32)
        .map_err(|what| format!("m {m}, numbers {numbers:?}: copies {what}"))?;
    met.stay_within_bound(&name(m), copies == MOST_COMPETITORS as u32);
    Ok(())
}

/// No rack has two cards of one number, so that a done arbitration shows one, all else none.
fn stated(arbitrated: bool, number: u32) -> u32 {
    u32::from(arbitrated && number == 0)
}

/// A listing line of the right form.
pub fn hold_line(line: &[u8]) -> Result<(), String> {
    let two_digits = |at: usize| u32::from(line[at] - b'0') * 10 + u32::from(line[at + 1] - b'0');
    expect(two_digits(19), stated(line[0] == b'A', two_digits(5))).map_err(|what| {
        let line = String::from_utf8_lossy(line);
        format!("{line:?}: copies {what}")
    })
}

/// What `rackstate` answers to a record.
pub fn hold_answer(record: &[u8], answer: &[u8]) -> Result<(), String> {
    let arbitrated = ask(record).letter == b'A';
    expect(answer[COPIES].into(), stated(arbitrated, number_of(answer)))
        .map_err(|what| format!("copies {what}; record of {}", shown(record)))
}

#[cfg(test)]
mod tests {
    use super::{bounds, hold_answer, hold_line, hold_list};
    use crate::judge::met::Met;
    use crate::judge::named_tables::WORKED_TABLE;
    use crate::rack::{Event, Rack};
    use crate::seen_as_bytes::{answer, record, Ask, COPIES};

    #[test]
    fn a_list() {
        let judged = |numbers: &[u16], copies| {
            hold_list(4, numbers, copies, &mut Met::nothing(bounds())).is_ok()
        };
        assert!(judged(&[5, 9, 9], 2) && !judged(&[5, 9, 9], 1));
        assert!(judged(&[5, 5, 9], 1) && !judged(&[5, 5, 9], 2));
        assert!(judged(&[], 0) && !judged(&[], 1));
        assert!(judged(&[0], 1) && !judged(&[0], 0));
    }

    #[test]
    fn a_listing_line() {
        assert_eq!(hold_line(b"A 00 00 06 0006 02 01\n"), Ok(()));
        assert_eq!(hold_line(b"A 00 14 00 0000 00 00\n"), Ok(()));
        assert_eq!(hold_line(b"Q 06 00 00 0000 00 00\n"), Ok(()));
        assert!(hold_line(b"A 00 00 06 0006 02 00\n").is_err());
        assert!(hold_line(b"A 00 00 06 0006 02 02\n").is_err());
        assert!(hold_line(b"A 00 14 00 0000 00 01\n").is_err());
        assert!(hold_line(b"Q 06 00 00 0000 00 01\n").is_err());
    }

    #[test]
    fn an_answer() {
        let (fresh, _) = Rack::load(&WORKED_TABLE);
        let (asked, _) = fresh.after(Event::Request(5)).expect("card 5 may ask");
        let asks = [(asked, b'A', 1), (fresh, b'A', 0), (fresh, b'Q', 0)];
        for (rack, letter, copies) in asks {
            let record = record(&rack, Ask { letter, number: 0 });
            let mut answer = answer(&record);
            assert_eq!(answer[COPIES], copies);
            assert_eq!(hold_answer(&record, &answer), Ok(()));
            answer[COPIES] += 1;
            assert!(hold_answer(&record, &answer).is_err());
        }
    }
}
