//! The known settlings P1 to P10 and others from lines that don't start at 0, by the reference, by
//! the product and by the rules.

use super::expect::expect;
use super::kind::Kind;
use crate::entries;
use crate::rack::Rack;
use crate::rules::rule;
use crate::seen_from_c;
use crate::settling::{self, Settled};
use crate::table::Table;

pub struct Known {
    pub name: &'static str,
    pub competing: &'static [u16],
    pub m: u32,
    /// The first is the start.
    pub lines: &'static [u16],
    /// How many of the competing numbers equal the last of the lines.
    pub copies: u8,
}

pub static KNOWN: [Known; 29] = [
    known("P1", &[2, 5, 9, 10], 4, &[0, 15, 8, 11, 10], 1),
    known("P2", &[50, 46], 6, &[0, 62, 48, 50], 1),
    known("P3", &[85, 28], 7, &[0, 93, 80, 85], 1),
    known("P4", &[], 1, &[0], 0),
    known("P5", &[0], 1, &[0], 1),
    known("P6", &[1], 1, &[0, 1], 1),
    known("P7", &[5, 5], 3, &[0, 5], 2),
    known("P8", &[2, 5, 6], 3, &[0, 7, 6], 1),
    known("P9", &[10, 13, 6], 4, &[0, 15, 12, 13], 1),
    known("P10", &[18, 14], 6, &[0, 30, 16, 18], 1),
    known("P1-from-15", &[2, 5, 9, 10], 4, &[15, 8, 11, 10], 1),
    // As many stages as the greatest number has intervals, its top line set: the start gains nothing.
    known("P1-from-1", &[2, 5, 9, 10], 4, &[1, 15, 8, 11, 10], 1),
    known("1010-from-0111", &[10, 9, 4], 4, &[7, 12, 8, 11, 10], 1),
    known("10-from-01", &[2, 1], 2, &[1, 3, 2], 1),
    // One stage more where no competitor sets the top line: the lines have to come to 0 first.
    known("101-on-4-lines-from-15", &[5, 2], 4, &[15, 0, 7, 4, 5], 1),
    known("101-on-4-lines-from-8", &[5, 2], 4, &[8, 0, 7, 4, 5], 1),
    known("1-on-2-lines-from-2", &[1], 2, &[2, 0, 1], 1),
    known("0-on-1-line-from-1", &[0], 1, &[1, 0], 1),
    // An empty list takes a stage, or none from lines at 0.
    known("none-from-1", &[], 1, &[1, 0], 0),
    known("none-from-4095", &[], 12, &[4095, 0], 0),
    // From the settled value no line changes.
    known("P1-from-10", &[2, 5, 9, 10], 4, &[10], 1),
    known("P9-from-13", &[10, 13, 6], 4, &[13], 1),
    // Cloned cards: every entry that equals the settled lines counts.
    known("5-64-times", &[5; 64], 3, &[0, 5], 64),
    known("5-64-times-from-2", &[5; 64], 3, &[2, 4, 5], 64),
    known("0-64-times-from-7", &[0; 64], 3, &[7, 0], 64),
    known("4095-64-times", &[4095; 64], 12, &[0, 4095], 64),
    known("5-63-times-and-6", &MANY_5_AND_6, 3, &[0, 7, 6], 1),
    known("6-63-times-and-5", &MANY_6_AND_5, 3, &[0, 7, 6], 63),
    known("0-twice-from-1", &[0, 0], 1, &[1, 0], 2),
];

const MANY_5_AND_6: [u16; 64] = with_one(6, [5; 64]);
const MANY_6_AND_5: [u16; 64] = with_one(5, [6; 64]);

/// The list with another number in its last place.
const fn with_one(number: u16, mut list: [u16; 64]) -> [u16; 64] {
    list[63] = number;
    list
}

const fn known(
    name: &'static str,
    competing: &'static [u16],
    m: u32,
    lines: &'static [u16],
    copies: u8,
) -> Known {
    Known {
        name,
        competing,
        m,
        lines,
        copies,
    }
}

impl Known {
    pub fn start(&self) -> u32 {
        self.lines[0].into()
    }

    pub fn settled(&self) -> Settled {
        Settled {
            stages: self.lines.to_vec(),
            copies: self.copies,
        }
    }
}

fn by_the_reference(known: &Known) -> Result<(), String> {
    let places = known.m as usize + 1;
    let settled = settling::settle(known.m, known.competing, places, known.start());
    expect(settled, Ok(known.settled()))
}

fn by_the_product(known: &Known) -> Result<(), String> {
    let places = known.m as usize + 1;
    let mut buffer = vec![0xee; 2 * places];
    let competing = seen_from_c::bytes(known.competing);
    let answer = entries::settle(known.m, &competing, &mut buffer, known.start());
    let stated = known.lines.len() as u32 - 1 + 256 * u32::from(known.copies);
    expect(answer, stated)?;
    let written = 2 * known.lines.len();
    expect(&buffer[..written], &seen_from_c::bytes(known.lines))?;
    expect(&buffer[written..], &vec![0xee; 2 * places - written])
}

/// A waiting card with its waiting count.
type Waiting = (u8, u8);

/// The lines and competing numbers that a rule gives at k = 3.
fn by_the_rules(
    number: u8,
    last_winner: u8,
    waiting: &[Waiting],
    known: &Known,
) -> Result<(), String> {
    let mut table = Table::NONE;
    table.k = 3;
    table.rule = number;
    let mut rack = Rack::fresh(table);
    rack.last_winner = last_winner;
    for &(card, count) in waiting {
        rack.counts[usize::from(card)] = count;
    }
    let rule = rule(number);
    let cards = waiting.iter().map(|&(card, _)| card);
    let competing: Vec<u16> = cards.map(|card| (rule.number)(&rack, card)).collect();
    expect(&competing[..], known.competing)?;
    expect((rule.lines)(3), known.m)
}

pub fn kinds() -> Vec<Kind> {
    let mut kinds = Vec::new();
    for known in &KNOWN {
        let name = known.name;
        kinds.push(Kind::named(format!("{name}-by-the-reference"), |_| {
            by_the_reference(known)
        }));
        kinds.push(Kind::named(format!("{name}-by-the-product"), |_| {
            by_the_product(known)
        }));
    }
    kinds.push(Kind::named("P8-by-rule-0", |_| {
        by_the_rules(0, 0, &[(2, 0), (5, 0), (6, 0)], &KNOWN[7])
    }));
    kinds.push(Kind::named("P9-by-rule-1", |_| {
        by_the_rules(1, 6, &[(2, 0), (5, 0), (6, 0)], &KNOWN[8])
    }));
    kinds.push(Kind::named("P10-by-rule-2", |_| {
        by_the_rules(2, 0, &[(2, 2), (6, 1)], &KNOWN[9])
    }));
    kinds
}
