//! Buffers with guards on both sides, lent to the product and to the reference alike.

use crate::rng::Rng;

/// Longer than anything an entry may write.
const GUARD: usize = 128;

#[derive(Clone, PartialEq)]
struct Guarded {
    bytes: Vec<u8>,
}

impl Guarded {
    fn new(length: usize, rng: &mut Rng) -> Guarded {
        Guarded {
            bytes: noise(GUARD + length + GUARD, rng),
        }
    }

    fn lent(&mut self) -> &mut [u8] {
        let end = self.bytes.len() - GUARD;
        &mut self.bytes[GUARD..end]
    }

    fn first_difference(&self, wanted: &Guarded) -> String {
        let pairs = self.bytes.iter().zip(&wanted.bytes);
        let at = pairs.take_while(|(got, wanted)| got == wanted).count();
        let (got, wanted) = (self.bytes[at], wanted.bytes[at]);
        let place = at as i64 - GUARD as i64;
        let length = self.bytes.len() - 2 * GUARD;
        format!("byte {place} of {length} is {got}, expected {wanted}")
    }
}

pub fn noise(length: usize, rng: &mut Rng) -> Vec<u8> {
    let mut bytes: Vec<u8> = (0..length.div_ceil(8))
        .flat_map(|_| rng.next_u64().to_le_bytes())
        .collect();
    bytes.truncate(length);
    bytes
}

/// Lends equal buffers of this length to both. The answers and every byte, guards too,
/// must agree; then gives the answer and what the buffer holds.
pub fn agreed(
    length: usize,
    rng: &mut Rng,
    product: impl FnOnce(&mut [u8]) -> u32,
    reference: impl FnOnce(&mut [u8]) -> u32,
) -> Result<(u32, Vec<u8>), String> {
    let mut by_product = Guarded::new(length, rng);
    let mut by_reference = by_product.clone();
    let answer = product(by_product.lent());
    let expected = reference(by_reference.lent());
    if answer != expected {
        return Err(format!("answer {answer}, expected {expected}"));
    }
    if by_product != by_reference {
        return Err(by_product.first_difference(&by_reference));
    }
    Ok((answer, by_product.lent().to_vec()))
}
