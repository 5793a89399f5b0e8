//! Drafts of card tables. A draft lays itself out consistently, in range or not.

use super::guarded::noise;
use crate::rng::Rng;
use crate::rules::GREATEST_RULE;
use crate::table::{greatest_number, HEADER};

/// The counts and widths of a table file.
#[derive(Clone, Debug)]
pub struct Shape {
    pub k: u8,
    pub rule: u8,
    pub cards: usize,
    pub columns: usize,
    pub length: usize,
    /// ANUM and SLOT share a byte, so each card's slot is its number.
    pub one_byte: bool,
    /// Unused bytes before the directory and between the directory and the records.
    pub gaps: [usize; 2],
}

pub struct Column {
    pub name: [u8; 4],
    pub offset: u8,
    pub width: u8,
}

pub struct Card {
    pub number: u8,
    pub slot: u8,
}

pub struct Draft {
    pub shape: Shape,
    pub columns: Vec<Column>,
    pub cards: Vec<Card>,
}

/// From `low` to `high`, often one of the two.
fn edged(low: usize, high: usize, rng: &mut Rng) -> usize {
    match rng.below(6) {
        0 => low,
        1 => high,
        _ => rng.between(low as u64, high as u64) as usize,
    }
}

pub fn any_rule(rng: &mut Rng) -> u8 {
    rng.between(0, u64::from(GREATEST_RULE)) as u8
}

impl Shape {
    pub fn sound(rng: &mut Rng) -> Shape {
        let k = rng.between(1, 6) as u8;
        Shape {
            k,
            rule: any_rule(rng),
            cards: edged(1, usize::from(greatest_number(k)), rng),
            columns: edged(2, 16, rng),
            length: edged(2, 64, rng),
            one_byte: rng.chance(1, 8),
            gaps: [edged(0, 40, rng), edged(0, 40, rng)],
        }
    }

    pub fn directory(&self) -> usize {
        HEADER + self.gaps[0]
    }

    pub fn records(&self) -> usize {
        self.directory() + 6 * self.columns + self.gaps[1]
    }

    pub fn file_length(&self) -> usize {
        self.records() + self.cards * self.length
    }
}

fn required_columns(shape: &Shape, rng: &mut Rng) -> [Column; 2] {
    let length = shape.length as u64;
    let number_at = rng.below(length);
    let slot_at = if shape.one_byte || length == 1 {
        number_at
    } else {
        (number_at + rng.between(1, length - 1)) % length
    };
    [(b"ANUM", number_at), (b"SLOT", slot_at)].map(|(name, offset)| Column {
        name: *name,
        offset: offset as u8,
        width: 1,
    })
}

/// A name that no column has yet, often one letter away from a required one.
pub fn new_name(columns: &[Column], rng: &mut Rng) -> [u8; 4] {
    const LETTERS: &[u8] = b"ABCDEFGHIJKLMNOPQRSTUVWXYZ0123456789";
    loop {
        let mut name = **rng.pick(&[b"ANUM", b"SLOT"]);
        let changed = if rng.chance(1, 2) { 1 } else { 4 };
        for _ in 0..changed {
            name[rng.below(4) as usize] = *rng.pick(LETTERS);
        }
        if columns.iter().all(|column| column.name != name) && &name != b"ANUM" && &name != b"SLOT"
        {
            return name;
        }
    }
}

fn columns(shape: &Shape, rng: &mut Rng) -> Vec<Column> {
    let mut columns = Vec::from(required_columns(shape, rng));
    while columns.len() < shape.columns {
        let width = rng.between(1, shape.length.min(4) as u64);
        columns.push(Column {
            name: new_name(&columns, rng),
            offset: rng.between(0, shape.length as u64 - width) as u8,
            width: width as u8,
        });
    }
    columns.truncate(shape.columns);
    rng.shuffle(&mut columns);
    columns
}

/// Different numbers and slots as far as there are enough of them.
fn cards(shape: &Shape, rng: &mut Rng) -> Vec<Card> {
    let mut numbers: Vec<u8> = (1..=greatest_number(shape.k).max(1)).collect();
    let mut slots: Vec<u8> = (1..=63).collect();
    rng.shuffle(&mut numbers);
    rng.shuffle(&mut slots);
    (0..shape.cards)
        .map(|i| {
            let number = numbers[i % numbers.len()];
            let slot = if shape.one_byte {
                number
            } else {
                slots[i % slots.len()]
            };
            Card { number, slot }
        })
        .collect()
}

impl Draft {
    pub fn of(shape: Shape, rng: &mut Rng) -> Draft {
        Draft {
            columns: columns(&shape, rng),
            cards: cards(&shape, rng),
            shape,
        }
    }

    pub fn sound(rng: &mut Rng) -> Draft {
        let shape = Shape::sound(rng);
        Draft::of(shape, rng)
    }

    /// The bytes of the draft. Whatever no column names is noise.
    pub fn file(&self, rng: &mut Rng) -> Vec<u8> {
        let shape = &self.shape;
        let mut file = noise(shape.file_length(), rng);
        let words = [shape.directory(), shape.records(), shape.length];
        let counts = [shape.columns, shape.cards].map(|count| count as u8);
        file[..6].copy_from_slice(&[1, 0, counts[0], counts[1], shape.k, shape.rule]);
        for (at, word) in [6, 8, 10].into_iter().zip(words) {
            put_two_bytes(&mut file, at, word);
        }
        for (i, column) in self.columns.iter().enumerate() {
            let entry = &mut file[shape.directory() + 6 * i..][..6];
            entry[..4].copy_from_slice(&column.name);
            entry[4..].copy_from_slice(&[column.offset, column.width]);
        }
        for (i, card) in self.cards.iter().enumerate() {
            let record = &mut file[shape.records() + shape.length * i..][..shape.length];
            self.put_card(card, record);
        }
        file
    }

    fn put_card(&self, card: &Card, record: &mut [u8]) {
        for column in &self.columns {
            let value = match &column.name {
                b"ANUM" => card.number,
                b"SLOT" => card.slot,
                _ => continue,
            };
            if let Some(byte) = record.get_mut(usize::from(column.offset)) {
                *byte = value;
            }
        }
    }
}

pub fn put_two_bytes(file: &mut [u8], at: usize, value: usize) {
    let value = u16::try_from(value).expect("a field of two bytes");
    file[at..at + 2].copy_from_slice(&value.to_le_bytes());
}
