//! Tables at the boundary of each range, each with the answer that the rules give.

use super::draft::{new_name, put_two_bytes, Column, Draft, Shape};
use super::kind::Kind;
use super::tables::hold_expecting;
use crate::rng::Rng;
use crate::table::{greatest_number, LONGEST_FILE};

const WEIGHT: u64 = 5;

fn kind(name: &str, expected: u32, make: impl Fn(&mut Rng) -> Vec<u8> + 'static) -> Kind {
    Kind::new(format!("table-with-{name}"), WEIGHT, move |rng, met| {
        let file = make(rng);
        hold_expecting(expected, &file, rng, met)
    })
}

/// A boundary of the counts; everything else follows them.
fn shaped(name: &str, expected: u32, change: impl Fn(&mut Shape) + 'static) -> Kind {
    kind(name, expected, move |rng| {
        let mut shape = Shape::sound(rng);
        change(&mut shape);
        Draft::of(shape, rng).file(rng)
    })
}

/// A boundary of the columns or the cards.
fn drafted(name: &str, expected: u32, change: impl Fn(&mut Draft, &mut Rng) + 'static) -> Kind {
    kind(name, expected, move |rng| {
        let mut shape = Shape::sound(rng);
        shape.one_byte = false;
        shape.columns = shape.columns.max(3);
        shape.length = shape.length.max(4);
        let mut draft = Draft::of(shape, rng);
        change(&mut draft, rng);
        draft.file(rng)
    })
}

/// A boundary of the file's own bytes.
fn edited(name: &str, expected: u32, edit: impl Fn(&mut Vec<u8>, &Shape) + 'static) -> Kind {
    kind(name, expected, move |rng| {
        let draft = Draft::sound(rng);
        let mut file = draft.file(rng);
        edit(&mut file, &draft.shape);
        file
    })
}

fn editions() -> Vec<Kind> {
    [(0, 2), (1, 0), (2, 2), (256, 2), (257, 2)]
        .map(|(edition, expected)| {
            let name = format!("edition-{edition}");
            edited(&name, expected, move |file, _| {
                put_two_bytes(file, 0, edition)
            })
        })
        .into()
}

fn counts() -> Vec<Kind> {
    let mut kinds = Vec::new();
    for (columns, expected) in [(1, 3), (2, 0), (16, 0), (17, 3)] {
        let name = format!("{columns}-columns");
        kinds.push(shaped(&name, expected, move |shape| {
            shape.columns = columns
        }));
    }
    for (cards, expected) in [(0, 3), (1, 0), (63, 0), (64, 3)] {
        let name = format!("{cards}-cards-at-k-6");
        kinds.push(shaped(&name, expected, move |shape| {
            shape.k = 6;
            shape.cards = cards;
        }));
    }
    for (k, expected) in [(0, 3), (1, 0), (6, 0), (7, 3)] {
        let name = format!("k-{k}");
        kinds.push(shaped(&name, expected, move |shape| {
            shape.k = k;
            shape.cards = 1;
        }));
    }
    for (over, expected) in [(0, 0), (1, 3)] {
        for k in 1..=5 {
            let cards = usize::from(greatest_number(k)) + over;
            let name = format!("{cards}-cards-as-k-{k}-goes");
            kinds.push(shaped(&name, expected, move |shape| {
                shape.k = k;
                shape.cards = cards;
            }));
        }
    }
    kinds
}

fn rules_and_lengths() -> Vec<Kind> {
    let mut kinds = Vec::new();
    for (rule, expected) in [(0, 0), (1, 0), (2, 0), (3, 0), (4, 0), (5, 3), (255, 3)] {
        let name = format!("rule-{rule}");
        kinds.push(shaped(&name, expected, move |shape| shape.rule = rule));
    }
    for (length, expected) in [(1, 3), (2, 0), (64, 0), (65, 3)] {
        let name = format!("record-length-{length}");
        kinds.push(shaped(&name, expected, move |shape| shape.length = length));
    }
    kinds
}

fn sizes() -> Vec<Kind> {
    let mut kinds = vec![
        edited("11-bytes", 1, |file, _| file.truncate(11)),
        edited("12-bytes", 4, |file, _| file.truncate(12)),
        edited("no-byte", 1, |file, _| file.clear()),
    ];
    for (name, length, expected) in [
        ("8192-bytes", LONGEST_FILE, 0),
        ("8193-bytes", LONGEST_FILE + 1, 1),
    ] {
        kinds.push(shaped(name, expected, move |shape| {
            shape.gaps[1] += length - shape.file_length();
        }));
    }
    kinds
}

fn offsets() -> Vec<Kind> {
    vec![
        edited("directory-at-11", 4, |file, _| put_two_bytes(file, 6, 11)),
        shaped("directory-at-12", 0, |shape| shape.gaps[0] = 0),
        shaped("records-at-the-directory-end", 0, |shape| shape.gaps[1] = 0),
        edited("records-before-the-directory-end", 4, |file, shape| {
            put_two_bytes(file, 6, shape.records() - 6 * shape.columns + 1);
        }),
        edited("one-byte-more", 4, |file, _| file.push(0)),
        edited("one-byte-less", 4, |file, _| file.truncate(file.len() - 1)),
        edited("a-directory-end-over-65535", 4, |file, shape| {
            put_two_bytes(file, 6, 65536 - 6 * shape.columns);
        }),
        kind("a-records-end-over-65535", 4, records_end_over_65535),
    ]
}

/// In 16 bits the records would end exactly at the end of the file.
fn records_end_over_65535(rng: &mut Rng) -> Vec<u8> {
    let mut shape = Shape::sound(rng);
    shape.k = 6;
    shape.cards = rng.between(10, 63) as usize;
    shape.length = rng.between(10, 64) as usize;
    let end = shape.cards * shape.length;
    let mut file = Draft::of(shape, rng).file(rng);
    file.truncate(rng.between(12, 99) as usize);
    let records = 65536 + file.len() - end;
    put_two_bytes(&mut file, 8, records);
    file
}

fn columns() -> Vec<Kind> {
    let mut kinds = Vec::new();
    for (width, expected) in [(0, 5), (1, 0), (2, 0), (4, 0), (5, 5)] {
        let name = format!("a-column-of-width-{width}");
        kinds.push(drafted(&name, expected, move |draft, _| {
            let column = passed_over(draft);
            column.offset = 0;
            column.width = width;
        }));
    }
    for (past, name, expected) in [(0, "at", 0), (1, "past", 5)] {
        let name = format!("a-column-ending-{name}-the-record-end");
        kinds.push(drafted(&name, expected, move |draft, rng| {
            let length = draft.shape.length as u8;
            let width = rng.between(1, 4) as u8;
            let column = passed_over(draft);
            column.width = width;
            column.offset = length + past - width;
        }));
    }
    for byte in *b"@AZ[/09:`az" {
        let expected = if b"AZ09".contains(&byte) { 0 } else { 5 };
        let name = format!("name-byte-{byte}");
        kinds.push(drafted(&name, expected, move |draft, rng| {
            name_with(byte, draft, rng)
        }));
    }
    kinds
}

/// A column that is neither ANUM nor SLOT.
fn passed_over(draft: &mut Draft) -> &mut Column {
    let mut columns = draft.columns.iter_mut();
    columns
        .find(|column| &column.name != b"ANUM" && &column.name != b"SLOT")
        .expect("a third column")
}

/// Puts the byte into the name of a passed-over column and keeps the names different.
fn name_with(byte: u8, draft: &mut Draft, rng: &mut Rng) {
    let at = rng.below(4) as usize;
    loop {
        let mut name = new_name(&draft.columns, rng);
        name[at] = byte;
        if draft.columns.iter().all(|column| column.name != name) {
            passed_over(draft).name = name;
            return;
        }
    }
}

fn required_columns() -> Vec<Kind> {
    let mut kinds = Vec::new();
    for (name, other) in [(b"ANUM", b"SLOT"), (b"SLOT", b"ANUM")] {
        for (width, offset, expected) in [(1, 0, 0), (2, 0, 6), (4, 0, 6), (2, 255, 5)] {
            let shown = String::from_utf8_lossy(name);
            let title = format!("{shown}-of-width-{width}-at-{offset}");
            kinds.push(drafted(&title, expected, move |draft, _| {
                column_named(draft, other).offset = 1;
                let column = column_named(draft, name);
                column.width = width;
                column.offset = offset;
            }));
        }
    }
    kinds
}

fn column_named<'a>(draft: &'a mut Draft, name: &[u8; 4]) -> &'a mut Column {
    let mut columns = draft.columns.iter_mut();
    columns
        .find(|column| &column.name == name)
        .expect("a sound draft has both")
}

fn values() -> Vec<Kind> {
    let mut kinds = Vec::new();
    for (name, number, expected) in [
        ("number-0", (|_| 0) as fn(u8) -> u8, 7),
        ("number-1", |_| 1, 0),
        ("the-greatest-number", greatest_number, 0),
        ("one-over-the-greatest-number", |k| 1 << k, 7),
        ("number-255", |_| 255, 7),
    ] {
        kinds.push(drafted(name, expected, move |draft, _| {
            let number = number(draft.shape.k);
            if draft.cards.iter().all(|card| card.number != number) {
                draft.cards[0].number = number;
            }
        }));
    }
    for (slot, expected) in [(0, 7), (1, 0), (63, 0), (64, 7), (255, 7)] {
        kinds.push(drafted(
            &format!("slot-{slot}"),
            expected,
            move |draft, _| {
                if draft.cards.iter().all(|card| card.slot != slot) {
                    draft.cards[0].slot = slot;
                }
            },
        ));
    }
    kinds
}

pub fn kinds() -> Vec<Kind> {
    [
        editions(),
        counts(),
        rules_and_lengths(),
        sizes(),
        offsets(),
        columns(),
        required_columns(),
        values(),
    ]
    .into_iter()
    .flatten()
    .collect()
}
