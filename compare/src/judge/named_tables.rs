//! The tables that the rules name, checked and saved.

use super::asked::hold_expecting;
use super::expect::expect;
use super::kind::Kind;
use super::met::Met;
use crate::entries;
use crate::rack::Rack;
use crate::rackstate::Shared;
use crate::seen_as_bytes::{Ask, ANSWER, STATE};
use crate::seen_from_c;

/// Three cards under rule 1, just as a save writes them.
pub const WORKED_TABLE: [u8; 30] = [
    0x01, 0x00, 0x02, 0x03, 0x03, 0x01, 0x0C, 0x00, 0x18, 0x00, 0x02, 0x00, 0x41, 0x4E, 0x55, 0x4D,
    0x00, 0x01, 0x53, 0x4C, 0x4F, 0x54, 0x01, 0x01, 0x02, 0x01, 0x05, 0x02, 0x06, 0x03,
];

/// The worked table's layout with another width, rule and other pairs of number and slot.
pub fn file_with(k: u8, rule: u8, cards: &[(u8, u8)]) -> Vec<u8> {
    let mut file = WORKED_TABLE[..24].to_vec();
    file[3] = cards.len() as u8;
    file[4] = k;
    file[5] = rule;
    file.extend(cards.iter().flat_map(|&(number, slot)| [number, slot]));
    file
}

fn both_check(file: &[u8], stated: u32, met: &mut Met) -> Result<(), String> {
    expect(seen_from_c::check(file), stated).map_err(|what| format!("reference: {what}"))?;
    expect(entries::check(file), stated).map_err(|what| format!("product: {what}"))?;
    met.meet(stated);
    Ok(())
}

fn checked(name: &str, file: Vec<u8>, stated: u32) -> Kind {
    Kind::named(name, move |met| both_check(&file, stated, met))
}

/// Both give the stated number for a save of the file's table to so many bytes;
/// gives the length and the lent bytes.
fn saved(
    file: &[u8],
    lent: u8,
    stated: u32,
    program: &Shared,
    met: &mut Met,
) -> Result<(u16, Vec<u8>), String> {
    let (rack, _) = Rack::load(file);
    let ask = Ask {
        letter: b'S',
        number: lent,
    };
    let answer = hold_expecting(stated, &rack, ask, program, met)?;
    let length = u16::from_le_bytes([answer[STATE + 1], answer[STATE + 2]]);
    Ok((length, answer[ANSWER..].to_vec()))
}

fn refused_save(name: &str, file: Vec<u8>, lent: u8, stated: u32, program: &Shared) -> Kind {
    let program = program.clone();
    Kind::named(name, move |met| {
        let found = saved(&file, lent, stated, &program, met)?;
        expect(found, (0, vec![0xee; usize::from(lent)]))
    })
}

/// Whatever the order of its cards, the table saves to the worked file.
fn saves_worked_table(name: &str, file: Vec<u8>, program: &Shared) -> Kind {
    let program = program.clone();
    Kind::named(name, move |met| {
        let found = saved(&file, 30, 0, &program, met)?;
        expect(found, (30, WORKED_TABLE.to_vec()))
    })
}

fn saves(program: &Shared) -> Vec<Kind> {
    let other_order = file_with(3, 1, &[(6, 3), (2, 1), (5, 2)]);
    vec![
        refused_save(
            "save-of-3-cards-into-29-bytes",
            WORKED_TABLE.to_vec(),
            29,
            8,
            program,
        ),
        saves_worked_table(
            "save-of-3-cards-into-30-bytes",
            WORKED_TABLE.to_vec(),
            program,
        ),
        refused_save(
            "save-of-a-refused-load",
            WORKED_TABLE[..11].to_vec(),
            3,
            17,
            program,
        ),
        saves_worked_table("saves-equal-tables-alike", other_order, program),
    ]
}

pub fn kinds(program: &Shared) -> Vec<Kind> {
    let mut kinds = vec![
        checked("worked-table", WORKED_TABLE.to_vec(), 0),
        checked("number-63-at-k-6", file_with(6, 0, &[(63, 1)]), 0),
        checked("number-64-at-k-6", file_with(6, 0, &[(64, 1)]), 7),
        checked(
            "3-cards-at-k-2",
            file_with(2, 0, &[(1, 1), (2, 2), (3, 3)]),
            0,
        ),
        checked(
            "4-cards-at-k-2",
            file_with(2, 0, &[(1, 1), (2, 2), (3, 3), (3, 4)]),
            3,
        ),
        checked("rule-3-batch", file_with(3, 3, &[(2, 1), (5, 2)]), 0),
        checked("rule-4-inhibit", file_with(3, 4, &[(2, 1), (5, 2)]), 0),
        checked("rule-5", file_with(3, 5, &[(2, 1), (5, 2)]), 3),
        checked("file-of-11-bytes", WORKED_TABLE[..11].to_vec(), 1),
    ];
    kinds.extend(saves(program));
    kinds
}
