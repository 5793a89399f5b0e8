//! The card table: read by column name, saved in one plain form.

use crate::rack::Rack;
use crate::rules::GREATEST_RULE;

pub const HEADER: usize = 12;
pub const LONGEST_FILE: usize = 8192;
pub const HIGHEST_SLOT: u8 = 63;
const ENTRY: usize = 6;

#[derive(Clone, Copy, Debug, PartialEq, Eq, Hash)]
pub struct Table {
    pub k: u8,
    pub rule: u8,
    /// The slot of each number, 0 for a number that no card has.
    pub slots: [u8; 64],
}

impl Table {
    /// What a refused load leaves behind.
    pub const NONE: Table = Table {
        k: 0,
        rule: 0,
        slots: [0; 64],
    };

    pub fn has(&self, number: u8) -> bool {
        number < 64 && self.slots[usize::from(number)] != 0
    }

    /// The numbers of the cards, rising.
    pub fn numbers(&self) -> Vec<u8> {
        (0..64).filter(|&number| self.has(number)).collect()
    }

    /// Would a file of this table pass every check of `load`?
    pub fn is_sound(&self) -> bool {
        let numbers = self.numbers();
        let slots: Vec<u8> = numbers
            .iter()
            .map(|&a| self.slots[usize::from(a)])
            .collect();
        counts_in_range(numbers.len(), self.k, self.rule)
            && numbers
                .iter()
                .all(|&number| number_in_range(number, self.k))
            && slots.iter().all(|&slot| slot_in_range(slot))
            && !has_repetition(&slots)
    }
}

struct Header {
    columns: usize,
    cards: usize,
    k: u8,
    rule: u8,
    directory: usize,
    records: usize,
    length: usize,
}

struct Column {
    name: [u8; 4],
    offset: usize,
    width: u8,
}

fn two_bytes(file: &[u8], at: usize) -> usize {
    usize::from(file[at]) + 256 * usize::from(file[at + 1])
}

fn header(file: &[u8]) -> Header {
    Header {
        columns: usize::from(file[2]),
        cards: usize::from(file[3]),
        k: file[4],
        rule: file[5],
        directory: two_bytes(file, 6),
        records: two_bytes(file, 8),
        length: two_bytes(file, 10),
    }
}

pub fn greatest_number(k: u8) -> u8 {
    (1 << k) - 1
}

fn counts_in_range(cards: usize, k: u8, rule: u8) -> bool {
    (1..=63).contains(&cards)
        && (1..=6).contains(&k)
        && rule <= GREATEST_RULE
        && cards <= usize::from(greatest_number(k))
}

fn number_in_range(number: u8, k: u8) -> bool {
    (1..=greatest_number(k)).contains(&number)
}

fn slot_in_range(slot: u8) -> bool {
    (1..=HIGHEST_SLOT).contains(&slot)
}

fn has_repetition<T: PartialEq>(items: &[T]) -> bool {
    (0..items.len()).any(|i| items[..i].contains(&items[i]))
}

fn layout_holds(header: &Header, file_length: usize) -> bool {
    header.directory >= HEADER
        && header.directory + ENTRY * header.columns <= header.records
        && header.records + header.cards * header.length == file_length
}

fn columns(file: &[u8], header: &Header) -> Vec<Column> {
    file[header.directory..]
        .chunks(ENTRY)
        .take(header.columns)
        .map(|entry| Column {
            name: [entry[0], entry[1], entry[2], entry[3]],
            offset: usize::from(entry[4]),
            width: entry[5],
        })
        .collect()
}

fn column_holds(column: &Column, record_length: usize) -> bool {
    column
        .name
        .iter()
        .all(|byte| byte.is_ascii_uppercase() || byte.is_ascii_digit())
        && (1..=4).contains(&column.width)
        && column.offset + usize::from(column.width) <= record_length
}

fn directory_holds(columns: &[Column], record_length: usize) -> bool {
    let names: Vec<[u8; 4]> = columns.iter().map(|column| column.name).collect();
    columns
        .iter()
        .all(|column| column_holds(column, record_length))
        && !has_repetition(&names)
}

/// The offset of a required column in a record.
fn required(columns: &[Column], name: &[u8; 4]) -> Result<usize, u32> {
    match columns.iter().find(|column| column.name == *name) {
        Some(column) if column.width == 1 => Ok(column.offset),
        _ => Err(6),
    }
}

/// The record part is judged by itself, with the directory beside it.
fn slots_by_number(part: &[u8], columns: &[Column], length: usize, k: u8) -> Result<[u8; 64], u32> {
    let number_at = required(columns, b"ANUM")?;
    let slot_at = required(columns, b"SLOT")?;
    let mut slots = [0; 64];
    for record in part.chunks(length) {
        let (number, slot) = (record[number_at], record[slot_at]);
        if !number_in_range(number, k) || !slot_in_range(slot) {
            return Err(7);
        }
        if slots[usize::from(number)] != 0 || slots.contains(&slot) {
            return Err(7);
        }
        slots[usize::from(number)] = slot;
    }
    Ok(slots)
}

/// The table of a file, or the first refusal of 1 to 7.
pub fn load(file: &[u8]) -> Result<Table, u32> {
    if file.len() < HEADER || file.len() > LONGEST_FILE {
        return Err(1);
    }
    if two_bytes(file, 0) != 1 {
        return Err(2);
    }
    let header = header(file);
    if !(2..=16).contains(&header.columns)
        || !(2..=64).contains(&header.length)
        || !counts_in_range(header.cards, header.k, header.rule)
    {
        return Err(3);
    }
    if !layout_holds(&header, file.len()) {
        return Err(4);
    }
    let columns = columns(file, &header);
    if !directory_holds(&columns, header.length) {
        return Err(5);
    }
    let part = &file[header.records..];
    Ok(Table {
        k: header.k,
        rule: header.rule,
        slots: slots_by_number(part, &columns, header.length, header.k)?,
    })
}

/// The bytes of a sound table: two columns, cards by rising number.
fn file_of(table: &Table) -> Vec<u8> {
    let numbers = table.numbers();
    let mut file = vec![1, 0, 2, numbers.len() as u8, table.k, table.rule];
    file.extend([12, 0, 24, 0, 2, 0]);
    file.extend(b"ANUM\x00\x01SLOT\x01\x01");
    for number in numbers {
        file.extend([number, table.slots[usize::from(number)]]);
    }
    file
}

/// Writes the table of a state to the front of the buffer and gives the length,
/// or writes nothing and gives 17 or 8.
pub fn save(rack: &Rack, buffer: &mut [u8]) -> Result<usize, u32> {
    if !rack.is_well_formed() {
        return Err(17);
    }
    let file = file_of(&rack.table);
    if buffer.len() < file.len() {
        return Err(8);
    }
    buffer[..file.len()].copy_from_slice(&file);
    Ok(file.len())
}
