//! Damaged tables: one fault for each refusal of a file, to be put together at will.

use super::draft::{new_name, put_two_bytes, Draft};
use super::guarded::noise;
use crate::rng::Rng;
use crate::table::LONGEST_FILE;

/// A file with these faults, given by their refusals rising.
pub fn damaged(faults: &[u32], rng: &mut Rng) -> Vec<u8> {
    let mut draft = Draft::sound(rng);
    for fault in faults.iter().rev() {
        match fault {
            7 => value_fault(&mut draft, rng),
            6 => required_column_fault(&mut draft, rng),
            5 => directory_fault(&mut draft, rng),
            _ => {}
        }
    }
    let mut file = draft.file(rng);
    for fault in faults.iter().rev() {
        match fault {
            4 => layout_fault(&mut file, &draft, rng),
            3 => range_fault(&mut file, &draft, rng),
            2 => edition_fault(&mut file, rng),
            1 => size_fault(&mut file, rng),
            _ => {}
        }
    }
    file
}

fn value_fault(draft: &mut Draft, rng: &mut Rng) {
    let one = rng.below(draft.cards.len() as u64) as usize;
    let other = (one + 1) % draft.cards.len();
    let twice = draft.cards.len() > 1 && rng.chance(1, 2);
    let number_over = rng.between(1 << draft.shape.k, 255) as u8;
    let slot_over = rng.between(64, 255) as u8;
    let bad_number = match twice {
        true => draft.cards[other].number,
        false => *rng.pick(&[0, 1 << draft.shape.k, number_over, 255]),
    };
    let bad_slot = match twice {
        true => draft.cards[other].slot,
        false => *rng.pick(&[0, 64, slot_over, 255]),
    };
    let card = &mut draft.cards[one];
    if draft.shape.one_byte {
        // Bad as a number is enough where one byte is both.
        card.number = bad_number;
        card.slot = bad_number;
    } else if rng.chance(1, 2) {
        card.number = bad_number;
    } else {
        card.slot = bad_slot;
    }
}

fn required_column_fault(draft: &mut Draft, rng: &mut Rng) {
    let name = *rng.pick(&[*b"ANUM", *b"SLOT"]);
    let other = new_name(&draft.columns, rng);
    let length = draft.shape.length as u64;
    let column = draft.columns.iter_mut().find(|column| column.name == name);
    let column = column.expect("a sound draft has both");
    if rng.chance(1, 2) {
        column.name = other;
    } else {
        let width = rng.between(2, length.min(4));
        column.width = width as u8;
        column.offset = rng.between(0, length - width) as u8;
    }
}

fn directory_fault(draft: &mut Draft, rng: &mut Rng) {
    let one = rng.below(draft.columns.len() as u64) as usize;
    let other = (one + 1) % draft.columns.len();
    let other_name = draft.columns[other].name;
    let length = draft.shape.length as u64;
    let column = &mut draft.columns[one];
    match rng.below(4) {
        0 => column.name[rng.below(4) as usize] = bad_name_byte(rng),
        1 => column.name = other_name,
        2 => column.width = *rng.pick(&[0, 5, 6, 255]),
        _ => {
            let first_past = length + 1 - u64::from(column.width);
            let far_past = rng.between(first_past, 255);
            column.offset = *rng.pick(&[first_past, far_past]) as u8;
        }
    }
}

fn bad_name_byte(rng: &mut Rng) -> u8 {
    loop {
        let byte = match rng.below(3) {
            0 => *rng.pick(b"@[/:az\0 "),
            _ => rng.byte(),
        };
        if !byte.is_ascii_uppercase() && !byte.is_ascii_digit() {
            return byte;
        }
    }
}

fn layout_fault(file: &mut Vec<u8>, draft: &Draft, rng: &mut Rng) {
    let shape = &draft.shape;
    let records = shape.records();
    let last_directory = (records - 6 * shape.columns) as u64;
    match rng.below(5) {
        0 => put_two_bytes(file, 6, rng.below(12) as usize),
        1 => {
            let far = rng.between(last_directory + 1, 65535);
            let directory = *rng.pick(&[last_directory + 1, far, 65535]);
            put_two_bytes(file, 6, directory as usize);
        }
        2 => {
            let shift = rng.between(1, 65535) as usize;
            let elsewhere = [records - 1, records + 1, (records + shift) % 65536];
            put_two_bytes(file, 8, *rng.pick(&elsewhere));
        }
        3 => file.extend(noise(rng.between(1, 20) as usize, rng)),
        _ => {
            let most = file.len() as u64 - 12;
            let any = rng.between(1, most);
            let cut = *rng.pick(&[1, any]);
            file.truncate(file.len() - cut as usize);
        }
    }
}

fn range_fault(file: &mut [u8], draft: &Draft, rng: &mut Rng) {
    let over_k = 1 << draft.shape.k;
    let long = rng.between(65, 65535) as usize;
    let bad_rule = rng.between(5, 255) as u8;
    match rng.below(5) {
        0 => file[2] = *rng.pick(&[0, 1, 17, 255]),
        1 => file[3] = *rng.pick(&[0, over_k, 64, 255]),
        2 => file[4] = *rng.pick(&[0, 7, 8, 255]),
        3 => file[5] = *rng.pick(&[5, 6, 255, bad_rule]),
        _ => put_two_bytes(file, 10, *rng.pick(&[0, 1, 65, 256 + 2, long])),
    }
}

fn edition_fault(file: &mut [u8], rng: &mut Rng) {
    put_two_bytes(file, 0, *rng.pick(&[0, 2, 256, 257, 65535]));
}

fn size_fault(file: &mut Vec<u8>, rng: &mut Rng) {
    if rng.chance(1, 2) {
        file.truncate(rng.below(12) as usize);
    } else {
        let any = rng.between(1, 500);
        let over = *rng.pick(&[1, any, 60_000]) as usize;
        let missing = LONGEST_FILE + over - file.len();
        file.extend(noise(missing, rng));
    }
}
