//! The figures of the waiting report, worked out from the whole history that a listing tells.
//!
//! Nothing is tallied along the way: each figure is looked for in the finished history. An election
//! is a grant, since the request ends with it.

use crate::waiting::{waits, Entry, Wait};

/// How many done events are counted at most.
pub const MOST_EVENTS: usize = 65_535;

/// The figures of one card.
#[derive(Clone, Copy, Debug, PartialEq, Eq)]
pub struct Figures {
    pub grants: u64,
    /// The sum of its waits, in grants to others, and of their squares.
    pub sum: u64,
    pub squares: u64,
    /// Above the line and below it.
    pub variance: (u64, u64),
}

/// The longest beginning of a history that is counted.
pub fn counted(history: &[Entry]) -> &[Entry] {
    let is_done = |&at: &usize| history[at] != Entry::Refused;
    let last = (0..history.len()).filter(is_done).nth(MOST_EVENTS - 1);
    match last {
        Some(at) => &history[..=at],
        None => history,
    }
}

pub fn done_events(history: &[Entry]) -> usize {
    let done = history.iter().filter(|&&entry| entry != Entry::Refused);
    done.count()
}

/// How long each finished wait was, in grants to others.
fn lengths(waits: &[Wait]) -> Vec<u64> {
    let finished = waits.iter().filter(|wait| wait.granted.is_some());
    finished.map(|wait| wait.others.len() as u64).collect()
}

/// Each length with how often it comes, rising.
fn lengths_counted(mut lengths: Vec<u64>) -> Vec<(u64, u64)> {
    lengths.sort_unstable();
    let same = lengths.chunk_by(|a, b| a == b);
    same.map(|run| (run[0], run.len() as u64)).collect()
}

/// The squared differences of every two waits, each two taken once. Grants times squares less sum
/// squared comes to the same, and is not used here.
fn squared_differences(lengths: &[u64]) -> u64 {
    let counted = lengths_counted(lengths.to_vec());
    let with_greater = |(i, &(low, lows)): (usize, &(u64, u64))| -> u64 {
        let greater = counted[i + 1..].iter();
        greater
            .map(|&(high, highs)| lows * highs * (high - low) * (high - low))
            .sum()
    };
    counted.iter().enumerate().map(with_greater).sum()
}

/// The figures of a card from all its waits. A wait that is not over is in none of them.
pub fn figures(waits: &[Wait]) -> Figures {
    let lengths = lengths(waits);
    let grants = lengths.len() as u64;
    Figures {
        grants,
        sum: lengths.iter().sum(),
        squares: lengths.iter().map(|length| length * length).sum(),
        variance: (squared_differences(&lengths), grants * grants),
    }
}

/// Is the card between an ask and its grant at this place of the history? Its own grant is none.
fn waits_at(at: usize, waits: &[Wait]) -> bool {
    let line = at + 1;
    let later = waits.partition_point(|wait| wait.asked < line);
    let last = waits[..later].last();
    last.is_some_and(|wait| wait.granted.is_none_or(|granted| granted > line))
}

/// Row the waiter and column the granted card, both in the order of `cards`: how many grants to
/// the column's card left the row's card waiting. Looked up for each grant in all waits.
pub fn square(history: &[Entry], cards: &[u8]) -> Vec<Vec<u64>> {
    let waits: Vec<Vec<Wait>> = cards.iter().map(|&card| waits(history, card)).collect();
    let grants_to = |card: u8| -> Vec<usize> {
        let places = 0..history.len();
        places
            .filter(|&at| history[at] == Entry::Granted(card))
            .collect()
    };
    let grants: Vec<Vec<usize>> = cards.iter().map(|&card| grants_to(card)).collect();
    let left_waiting = |grants: &Vec<usize>, waits: &Vec<Wait>| -> u64 {
        let left = grants.iter().filter(|&&at| waits_at(at, waits));
        left.count() as u64
    };
    let row = |waits| {
        let columns = grants.iter();
        columns.map(|grants| left_waiting(grants, waits)).collect()
    };
    waits.iter().map(row).collect()
}

#[cfg(test)]
mod tests {
    use super::{counted, done_events, figures, square, squared_differences, Figures, MOST_EVENTS};
    use crate::judge::named_tables::WORKED_TABLE;
    use crate::judge::named_traces::WORKED_LISTING;
    use crate::rng::Rng;
    use crate::table;
    use crate::waiting::Entry::{self, Asked, Granted, Refused, Released};
    use crate::waiting::{history, waits, Wait};

    /// Card 2 asks and waits through the grants to 6 and 5, card 6 asks again meanwhile. All but the
    /// first grant are elections.
    const WORKED: [Entry; 15] = [
        Asked(2),
        Asked(5),
        Asked(6),
        Granted(6),
        Asked(6),
        Granted(5),
        Refused,
        Released(6),
        Granted(2),
        Released(5),
        Granted(6),
        Released(2),
        Refused,
        Released(6),
        Refused,
    ];

    fn figures_of(card: u8, history: &[Entry]) -> Figures {
        figures(&waits(history, card))
    }

    fn plain(grants: u64, sum: u64, squares: u64, variance: (u64, u64)) -> Figures {
        Figures {
            grants,
            sum,
            squares,
            variance,
        }
    }

    /// The history above is that of the worked listing.
    #[test]
    fn the_worked_listing_tells_the_worked_history() {
        let table = table::load(&WORKED_TABLE).expect("the worked table is accepted");
        let told = history(WORKED_LISTING.as_bytes(), &table);
        assert_eq!(told.as_deref(), Ok(&WORKED[..]));
    }

    #[test]
    fn the_worked_history() {
        assert_eq!(done_events(&WORKED), 12);
        assert_eq!(figures_of(2, &WORKED), plain(1, 2, 4, (0, 1)));
        assert_eq!(figures_of(5, &WORKED), plain(1, 1, 1, (0, 1)));
        assert_eq!(figures_of(6, &WORKED), plain(2, 2, 4, (4, 4)));
        let rows = [[0, 1, 1], [0, 0, 1], [1, 1, 0]];
        assert_eq!(square(&WORKED, &[2, 5, 6]), rows);
    }

    #[test]
    fn a_card_without_a_grant() {
        assert_eq!(figures_of(3, &WORKED), plain(0, 0, 0, (0, 0)));
        assert_eq!(figures_of(2, &WORKED[..8]), plain(0, 0, 0, (0, 0)));
    }

    /// A wait that is not over is in the square alone; at its own grant a card no longer waits.
    #[test]
    fn a_wait_that_is_not_over() {
        let rows = [[0, 1, 1], [0, 0, 1], [0, 1, 0]];
        assert_eq!(square(&WORKED[..8], &[2, 5, 6]), rows);
        assert_eq!(square(&WORKED[..3], &[2, 5, 6]), [[0; 3]; 3]);
    }

    #[test]
    fn a_card_that_asks_after_a_grant_was_not_left_waiting() {
        let history = [Asked(1), Granted(1), Asked(2), Released(1), Granted(2)];
        assert_eq!(square(&history, &[1, 2]), [[0; 2]; 2]);
    }

    #[test]
    fn no_more_than_the_most_events_are_counted() {
        let mut history = vec![Asked(1); MOST_EVENTS - 1];
        history.extend([Refused; 3]);
        assert_eq!(counted(&history), &history[..]);
        history.push(Granted(1));
        assert_eq!(counted(&history), &history[..]);
        history.push(Refused);
        assert_eq!(counted(&history), &history[..MOST_EVENTS + 3]);
        history.push(Asked(1));
        assert_eq!(counted(&history), &history[..MOST_EVENTS + 3]);
        assert_eq!(done_events(counted(&history)), MOST_EVENTS);
    }

    fn by_the_fraction_of_document_02(lengths: &[u64]) -> u64 {
        let sum: u64 = lengths.iter().sum();
        let squares: u64 = lengths.iter().map(|length| length * length).sum();
        lengths.len() as u64 * squares - sum * sum
    }

    #[test]
    fn the_differences_give_the_fraction_of_document_02() {
        assert_eq!(squared_differences(&[0, 2]), 4);
        assert_eq!(squared_differences(&[3, 0, 3, 1]), 9 + 9 + 4 + 4 + 1);
        let mut rng = Rng::new(1);
        for length in 0..200 {
            let lengths: Vec<u64> = (0..length).map(|_| rng.below(130)).collect();
            let wanted = by_the_fraction_of_document_02(&lengths);
            assert_eq!(squared_differences(&lengths), wanted, "{lengths:?}");
        }
    }

    /// Each row is also what the waits of its card list as grants to others.
    #[test]
    fn the_rows_are_the_grants_during_the_waits() {
        let mut rng = Rng::new(2);
        let cards = [1, 2, 3];
        for _ in 0..200 {
            let history = any_history(&cards, &mut rng);
            for (row, card) in square(&history, &cards).into_iter().zip(cards) {
                let others: Vec<u8> = waits(&history, card)
                    .into_iter()
                    .flat_map(|wait: Wait| wait.others)
                    .collect();
                let times = |other: u8| others.iter().filter(|&&card| card == other).count();
                assert_eq!(row, cards.map(|other| times(other) as u64), "{history:?}");
            }
        }
    }

    /// Any card that doesn't wait asks, or any card that waits is granted.
    fn any_history(cards: &[u8], rng: &mut Rng) -> Vec<Entry> {
        let mut waiting = [false; 4];
        (0..rng.between(0, 30))
            .map(|_| {
                let card = *rng.pick(cards);
                let waits = &mut waiting[usize::from(card)];
                *waits = !*waits;
                match *waits {
                    true => Asked(card),
                    false => Granted(card),
                }
            })
            .collect()
    }
}
