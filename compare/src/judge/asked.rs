//! States with what is asked of them, put to the product and to the reference alike.

use super::copies;
use super::expect::{expect, shown};
use super::met::Met;
use crate::rack::Rack;
use crate::rackstate::Shared;
use crate::seen_as_bytes::{answer, answer_length, number_of, rack, record, Ask};

/// The bytes of both answers to a record must agree.
pub fn same(record: &[u8], got: &[u8], wanted: &[u8]) -> Result<(), String> {
    if got == wanted {
        return Ok(());
    }
    let pairs = got.iter().zip(wanted);
    let at = pairs.take_while(|(got, wanted)| got == wanted).count();
    let (got, wanted, record) = (shown(got), shown(wanted), shown(record));
    Err(format!(
        "byte {at} of the answer is wrong: {got}, expected {wanted}; record of {record}"
    ))
}

/// Where the stored number of waiting cards is right it stays right, whatever is asked and answered.
fn keeps_counting(record: &[u8], got: &[u8]) -> Result<(), String> {
    let (before, after) = (rack(record), rack(got));
    if before.waiters != before.recount() {
        return Ok(());
    }
    expect(after.waiters, after.recount())
        .map_err(|what| format!("cards that wait: {what}; record of {}", shown(record)))
}

/// Puts records to both in one go and gives the product's answers, with which the reference's agree
/// byte for byte.
pub fn hold(program: &Shared, records: &[Vec<u8>], met: &mut Met) -> Result<Vec<Vec<u8>>, String> {
    let length = records.iter().map(|record| answer_length(record)).sum();
    let by_reference = || -> Vec<Vec<u8>> { records.iter().map(|record| answer(record)).collect() };
    let (printed, wanted) = program.answers(&records.concat(), length, by_reference)?;
    let mut rest = &printed[..];
    let mut answers = Vec::new();
    for (record, wanted) in records.iter().zip(&wanted) {
        let (got, after) = rest.split_at(wanted.len());
        same(record, got, wanted)
            .and_then(|()| keeps_counting(record, got))
            .and_then(|()| copies::hold_answer(record, got))
            .inspect_err(|_| program.end())?;
        met.meet(number_of(got));
        answers.push(got.to_vec());
        rest = after;
    }
    Ok(answers)
}

/// Both give the stated number; gives their answer.
pub fn hold_expecting(
    stated: u32,
    rack: &Rack,
    ask: Ask,
    program: &Shared,
    met: &mut Met,
) -> Result<Vec<u8>, String> {
    let answers = hold(program, &[record(rack, ask)], met)?;
    expect(number_of(&answers[0]), stated).map_err(|what| format!("{ask:?} of both: {what}"))?;
    Ok(answers.concat())
}

#[cfg(test)]
mod tests {
    use super::keeps_counting;
    use crate::rack::Rack;
    use crate::seen_as_bytes::{record, Ask};
    use crate::table::Table;

    /// A state with so many of two cards waiting and so many stored.
    fn state(waiting: usize, stored: u8) -> Vec<u8> {
        let mut rack = Rack::fresh(Table::NONE);
        rack.waiting[1..=waiting].fill(true);
        rack.waiters = stored;
        let ask = Ask {
            letter: b'N',
            number: 0,
        };
        record(&rack, ask)
    }

    #[test]
    fn a_right_number_of_waiting_cards_stays_right() {
        assert_eq!(keeps_counting(&state(1, 1), &state(2, 2)), Ok(()));
        assert!(keeps_counting(&state(1, 1), &state(1, 2)).is_err());
        assert!(keeps_counting(&state(1, 1), &state(2, 1)).is_err());
        assert!(keeps_counting(&state(0, 0), &state(0, 255)).is_err());
    }

    #[test]
    fn a_wrong_one_may_stay_wrong() {
        assert_eq!(keeps_counting(&state(1, 0), &state(1, 0)), Ok(()));
    }
}
