//! How often other cards are granted while a card waits, read from the text of a listing alone.

use super::expect::shown;
use super::kind::Kind;
use super::trace_maker::{crowded, table_file};
use crate::listing;
use crate::racktrace;
use crate::table::{self, Table};
use crate::waiting::{history, waits, Entry, Wait};

/// What is counted for one card of a rack of so many, over all its waits.
type Figure = fn(history: &[Entry], card: u8, cards: usize) -> usize;

struct Bound {
    counted: &'static str,
    figure: Figure,
    /// In a rack of so many cards.
    most: fn(cards: usize) -> usize,
}

const fn to_one_card(most: fn(usize) -> usize) -> Bound {
    Bound {
        counted: "to-one-card",
        figure: |history, card, _| {
            most_in_a_wait(history, card, |wait| most_to_one(&wait.others, |_| true))
        },
        most,
    }
}

const LOWER_ONCE: Bound = Bound {
    counted: "to-a-lower-number",
    figure: |history, card, _| {
        most_in_a_wait(history, card, |wait| {
            most_to_one(&wait.others, |other| other < card)
        })
    },
    most: |_| 1,
};

const fn to_all_others(most: fn(usize) -> usize) -> Bound {
    Bound {
        counted: "to-all-others",
        figure: |history, card, _| most_in_a_wait(history, card, |wait| wait.others.len()),
        most,
    }
}

const fn beyond_the_share(most: fn(usize) -> usize) -> Bound {
    Bound {
        counted: "beyond-the-share",
        figure: most_beyond_the_share,
        most,
    }
}

const ONE_EACH: fn(usize) -> usize = |cards| cards - 1;
const TWO_EACH: fn(usize) -> usize = |cards| 2 * (cards - 1);
const TWO_EACH_BUT_ONE: fn(usize) -> usize = |cards| (2 * cards).saturating_sub(3);

const BY_TURNS: [Bound; 3] = [
    to_one_card(|_| 1),
    to_all_others(ONE_EACH),
    beyond_the_share(ONE_EACH),
];

const BATCH: [Bound; 4] = [
    to_one_card(|_| 2),
    LOWER_ONCE,
    to_all_others(TWO_EACH_BUT_ONE),
    beyond_the_share(TWO_EACH_BUT_ONE),
];

const INHIBIT: [Bound; 4] = [
    to_one_card(|_| 2),
    LOWER_ONCE,
    to_all_others(TWO_EACH),
    beyond_the_share(TWO_EACH),
];

/// Each rule that bounds a wait.
const RULES: [(u8, &[Bound]); 4] = [(1, &BY_TURNS), (2, &BY_TURNS), (3, &BATCH), (4, &INHIBIT)];

type List = fn(file: &[u8], trace: &[u8]) -> Result<Vec<u8>, String>;

/// Who makes the listing, with what the names of its tests begin with.
const LISTED_BY: [(&str, List); 2] = [
    ("", |file, trace| racktrace::run(Some(file), trace)),
    ("reference-", |file, trace| {
        Ok(listing::listing(Some(file), trace))
    }),
];

/// The most grants to one card, of those that count.
fn most_to_one(granted: &[u8], counts: impl Fn(u8) -> bool) -> usize {
    let grants_to = |card: u8| granted.iter().filter(|&&other| other == card).count();
    let counted = granted.iter().copied().filter(|&card| counts(card));
    counted.map(grants_to).max().unwrap_or(0)
}

fn most_in_a_wait(history: &[Entry], card: u8, figure: impl Fn(&Wait) -> usize) -> usize {
    waits(history, card).iter().map(figure).max().unwrap_or(0)
}

/// In a stretch of grants at each of which the card waits, it should have one of N. The most grants
/// of any such stretch beyond N for each that the card has.
fn most_beyond_the_share(history: &[Entry], card: u8, cards: usize) -> usize {
    let waits = waits(history, card);
    let waits_at = |line| {
        let over = |wait: &Wait| wait.granted.is_some_and(|granted| granted < line);
        waits.iter().any(|wait| wait.asked < line && !over(wait))
    };
    let mut most = 0;
    let mut here = 0;
    for (entry, line) in history.iter().zip(1..) {
        here = match *entry {
            Entry::Granted(_) if !waits_at(line) => 0,
            Entry::Granted(winner) if winner == card => (here + 1_usize).saturating_sub(cards),
            Entry::Granted(_) => here + 1,
            _ => here,
        };
        most = most.max(here);
    }
    most
}

fn name(who: &str, rule: u8, counted: &str) -> String {
    format!("{who}grants-{counted}-rule-{rule}")
}

/// The figure of the card that has most of it.
fn figure(bound: &Bound, listing: &[u8], table: &Table) -> Result<usize, String> {
    let history = history(listing, table)?;
    let cards = table.numbers();
    let of_each = cards
        .iter()
        .map(|&card| (bound.figure)(&history, card, cards.len()));
    Ok(of_each.max().unwrap_or(0))
}

/// A bound that no case reaches would be a bound that is too mild, so the reaching is counted, in
/// racks of more than one card.
fn bounded(rule: u8, bounds: &'static [Bound], who: &'static str, list: List) -> Kind {
    Kind::new(name(who, rule, "during-a-wait"), 1, move |rng, met| {
        let file = table_file(rule, rng);
        let trace = crowded(&file, rng.between(100, 400) as usize, rng);
        let printed = list(&file, &trace)?;
        let table = table::load(&file).map_err(|n| format!("a sound table gives {n}"))?;
        let cards = table.numbers().len();
        for bound in bounds {
            let (counted, most) = (bound.counted, (bound.most)(cards));
            let figure = figure(bound, &printed, &table)?;
            if figure > most {
                let (file, trace) = (shown(&file), shown(&trace));
                return Err(format!(
                    "{figure} grants {counted}, at most {most}; table of {file}; trace of {trace}"
                ));
            }
            met.stay_within_bound(&name(who, rule, counted), cards > 1 && figure == most);
        }
        Ok(())
    })
}

pub fn bounds() -> Vec<String> {
    let named = |(rule, bounds): (u8, &'static [Bound])| {
        LISTED_BY.into_iter().flat_map(move |(who, _)| {
            bounds
                .iter()
                .map(move |bound| name(who, rule, bound.counted))
        })
    };
    RULES.into_iter().flat_map(named).collect()
}

pub fn kinds() -> Vec<Kind> {
    let both = |(rule, bounds)| LISTED_BY.map(move |(who, list)| bounded(rule, bounds, who, list));
    RULES.into_iter().flat_map(both).collect()
}
