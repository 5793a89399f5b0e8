//! Lists that take as many stages as their greatest number allows.

/// 1010.. on m lines, so that each line is an interval of its own.
pub fn alternating(m: u32) -> u16 {
    0b1010_1010_1010 >> (12 - m)
}

/// One rival for each place where the greatest number has 10: it follows the greatest down to
/// there, has 01 in its place, and zeros below. The rival's 1 holds up all below it until the
/// greatest number's own 1 has settled, so that each interval takes a stage of its own.
pub fn rivals(greatest: u16) -> Vec<u16> {
    let parts_at = |&one: &u32| greatest >> (one - 1) & 0b11 == 0b10;
    (1..u16::BITS)
        .rev()
        .filter(parts_at)
        .map(|one| ((greatest >> (one - 1)) - 1) << (one - 1))
        .collect()
}

/// A list that takes m stages.
pub fn list(m: u32) -> Vec<u16> {
    let winner = alternating(m);
    [&[winner], &rivals(winner)[..]].concat()
}

#[cfg(test)]
mod tests {
    use super::{list, rivals};

    #[test]
    fn rivals_have_01_for_10() {
        assert_eq!(rivals(0b110010), [0b101000, 0b110001]);
        assert_eq!(rivals(0b0011), []);
        assert_eq!(list(4), [0b1010, 0b0100, 0b1001]);
        assert_eq!(list(1), [0b1]);
    }
}
