//! The reference behind the same three entries that the product gives to C.

use crate::settling;
use crate::table;

/// k, the rule, and a slot for each number 0 to 63.
pub const TABLE_BYTES: usize = 66;

/// Two bytes each, low byte first; an odd last byte is passed over.
pub fn numbers(bytes: &[u8]) -> Vec<u16> {
    bytes
        .chunks_exact(2)
        .map(|pair| u16::from_le_bytes([pair[0], pair[1]]))
        .collect()
}

pub fn bytes(numbers: &[u16]) -> Vec<u8> {
    numbers
        .iter()
        .flat_map(|number| number.to_le_bytes())
        .collect()
}

/// The stages t plus 256 times the copies, or 100 plus the refusal.
pub fn settle(m: u32, competing: &[u8], buffer: &mut [u8], start: u32) -> u32 {
    match settling::settle(m, &numbers(competing), buffer.len() / 2, start) {
        Ok(settled) => {
            let written = bytes(&settled.stages);
            buffer[..written.len()].copy_from_slice(&written);
            u32::from(settled.t()) + 256 * u32::from(settled.copies)
        }
        Err(refusal) => 100 + refusal,
    }
}

/// What an answer of the settling says when it is done.
#[derive(Clone, Copy, Debug, PartialEq, Eq)]
pub struct Done {
    pub t: u32,
    pub copies: u32,
}

/// An answer of the settling taken apart: what is done, or the refusal. There are at most 12 stages,
/// so that a low byte of 100 or more is no t.
pub fn settled(answer: u32) -> Result<Done, u32> {
    match answer {
        100..=255 => Err(answer - 100),
        _ => Ok(Done {
            t: answer % 256,
            copies: answer / 256,
        }),
    }
}

/// The refusal 1 to 7, or 0.
pub fn check(file: &[u8]) -> u32 {
    table::load(file).err().unwrap_or(0)
}

/// The refusal 1 to 7, then 8 for a short buffer, or 0 with the table in the buffer.
pub fn table(file: &[u8], buffer: &mut [u8]) -> u32 {
    match table::load(file) {
        Err(refusal) => refusal,
        Ok(_) if buffer.len() < TABLE_BYTES => 8,
        Ok(table) => {
            buffer[0] = table.k;
            buffer[1] = table.rule;
            buffer[2..TABLE_BYTES].copy_from_slice(&table.slots);
            0
        }
    }
}

#[cfg(test)]
mod tests {
    use super::{bytes, settle, settled, Done};

    fn answer(m: u32, numbers: &[u16], start: u32) -> u32 {
        let mut buffer = vec![0; 2 * (m as usize + 1)];
        settle(m, &bytes(numbers), &mut buffer, start)
    }

    #[test]
    fn copies_are_added_256_times() {
        assert_eq!(answer(4, &[2, 5, 9, 10], 0), 4 + 256);
        assert_eq!(answer(3, &[5; 64], 0), 1 + 256 * 64);
        assert_eq!(answer(4, &[], 15), 1);
        assert_eq!(answer(4, &[5; 65], 0), 122);
    }

    #[test]
    fn an_answer_taken_apart() {
        let done = |t, copies| Ok(Done { t, copies });
        assert_eq!(settled(1 + 256 * 64), done(1, 64));
        assert_eq!(settled(12), done(12, 0));
        assert_eq!(settled(256), done(0, 1));
        assert_eq!(settled(125), Err(25));
    }
}
