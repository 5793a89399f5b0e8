//! The lists of competing numbers that are settled, and what the lines start from.

use compare::rng::Rng;
use compare::settling::MOST_COMPETITORS;
use compare::slowest;

/// The lists where a slip would show first: nobody, the number 0, repeats, maxima, a full rack,
/// the longest settling.
pub fn extreme_lists(m: u32) -> Vec<Vec<u16>> {
    let greatest = (1 << m) - 1;
    let full_rack = 0..MOST_COMPETITORS as u16;
    vec![
        vec![],
        vec![0],
        vec![0, 0],
        vec![greatest],
        vec![0, greatest],
        vec![greatest, greatest - 1],
        vec![greatest; MOST_COMPETITORS],
        vec![0; MOST_COMPETITORS],
        full_rack.map(|card| card.min(greatest)).collect(),
        (0..m).map(|j| 1 << j).collect(),
        slowest::list(m),
    ]
}

/// The starts where a slip would show first: nothing, all lines, only the top line, all but it.
pub fn extreme_starts(m: u32) -> [u16; 4] {
    let top = 1 << (m - 1);
    [0, top + (top - 1), top, top - 1]
}

/// Often what the lines settled to before, which is one of the numbers.
pub fn random_start(rng: &mut Rng, m: u32, numbers: &[u16]) -> u16 {
    let any = rng.below(1 << m) as u16;
    let one = match numbers.is_empty() {
        true => 0,
        false => *rng.pick(numbers),
    };
    *rng.pick(&[any, any, one, 0])
}

/// Few cards settle longest and many cards fill the rack, so every size gets its share. Numbers
/// that agree in their high bits keep one another in play for more stages than unrelated ones.
pub fn random_list(rng: &mut Rng, m: u32) -> Vec<u16> {
    let most = *rng.pick(&[3, 6, 12, MOST_COMPETITORS as u64]);
    let count = rng.below(most + 1);
    let shared = rng.below(1 << m);
    (0..count)
        .map(|_| {
            let free_bits = rng.below(u64::from(m) + 1);
            (shared ^ rng.below(1 << free_bits)) as u16
        })
        .collect()
}
