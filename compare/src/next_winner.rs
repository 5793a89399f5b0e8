//! Who is next under round-robin: found by looking along the numbers, not by settling.

use crate::rack::Rack;
use crate::table::greatest_number;

const ROUND_ROBIN: u8 = 1;

/// Every number but 0, in the order in which it is looked at.
fn look(last_winner: u8, k: u8) -> Vec<u8> {
    let greatest = greatest_number(k);
    let below = (1..last_winner).rev();
    let from_the_top = (last_winner.max(1)..=greatest).rev();
    below.chain(from_the_top).collect()
}

/// The first card of the look that waits, or the refusal. While the bus is held it is the card that
/// an arbitration would elect.
pub fn next_winner(rack: &Rack) -> Result<u8, u32> {
    if !rack.is_well_formed() {
        return Err(17);
    }
    if rack.table.rule != ROUND_ROBIN {
        return Err(32);
    }
    if rack.bus.elected().is_some() {
        return Err(13);
    }
    let mut look = look(rack.last_winner, rack.table.k).into_iter();
    look.find(|&card| rack.waits(card)).ok_or(14)
}

#[cfg(test)]
mod tests {
    use super::{look, next_winner};
    use crate::judge::draft::any_rule;
    use crate::judge::named_tables::WORKED_TABLE;
    use crate::judge::named_traces::{trace_of, WORKED_LISTING};
    use crate::judge::state_maker::sound;
    use crate::listing::{Session, TRACE_LINE};
    use crate::rack::{Event, Rack};
    use crate::rng::Rng;

    #[test]
    fn the_order_of_the_look() {
        assert_eq!(look(5, 3), [4, 3, 2, 1, 7, 6, 5]);
        assert_eq!(look(0, 3), [7, 6, 5, 4, 3, 2, 1]);
        assert_eq!(look(1, 3), [7, 6, 5, 4, 3, 2, 1]);
        assert_eq!(look(7, 3), [6, 5, 4, 3, 2, 1, 7]);
        assert_eq!(look(0, 1), [1]);
        assert_eq!(look(1, 1), [1]);
        let mut of_all = look(20, 6);
        of_all.sort_unstable();
        assert_eq!(of_all, (1..=63).collect::<Vec<u8>>());
    }

    fn arbitrated(rack: &Rack) -> Result<u8, u32> {
        rack.after(Event::Arbitrate).map(|(_, done)| done.winner)
    }

    #[test]
    fn the_look_finds_the_winner_of_an_arbitration() {
        let mut rng = Rng::new(1);
        for _ in 0..5000 {
            let rack = sound(1, &mut rng);
            assert_eq!(next_winner(&rack), arbitrated(&rack), "{rack:?}");
        }
    }

    /// The winner or the refusal of each arbitration in the worked listing, known before it.
    #[test]
    fn the_look_before_each_worked_arbitration() {
        let (mut session, _) = Session::start(Some(&WORKED_TABLE));
        let mut looks = Vec::new();
        for line in trace_of(WORKED_LISTING).chunks(TRACE_LINE) {
            if line[0] == b'A' {
                looks.push(next_winner(session.rack()));
            }
            session.answer(line);
        }
        assert_eq!(looks, [Ok(6), Ok(5), Ok(2), Ok(6), Err(14), Err(14)]);
    }

    #[test]
    fn no_look_under_another_rule() {
        let mut rng = Rng::new(2);
        for _ in 0..500 {
            let rack = sound(any_rule(&mut rng), &mut rng);
            assert_eq!(next_winner(&rack) == Err(32), rack.table.rule != 1);
        }
    }
}
