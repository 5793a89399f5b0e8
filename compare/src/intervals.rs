//! The interval-number of document 002, definition 4.

/// How many intervals of consecutive ones or zeros a number has in binary, disregarding leading
/// zeros.
pub fn interval_number(number: u16) -> u32 {
    let from_the_top = (0..u16::BITS).rev().map(|j| number >> j & 1 == 1);
    let mut one_for_each: Vec<bool> = from_the_top.skip_while(|&bit| !bit).collect();
    one_for_each.dedup();
    one_for_each.len() as u32
}

#[cfg(test)]
mod tests {
    use super::interval_number;

    #[test]
    fn the_examples_of_the_document() {
        assert_eq!(interval_number(0b001011), 3);
        assert_eq!(interval_number(0b0000), 0);
        assert_eq!(interval_number(0b10101010), 8);
    }

    /// The codes of length 4 and of length 5 that the document lists for interval-number 2.
    #[test]
    fn the_binomial_codes_of_the_document() {
        let at_most_2 =
            |m: u32| -> Vec<u16> { (0..1 << m).filter(|&p| interval_number(p) <= 2).collect() };
        let d4 = [
            0b0000, 0b0001, 0b0010, 0b0011, 0b0100, 0b0110, 0b0111, 0b1000, 0b1100, 0b1110, 0b1111,
        ];
        let d5 = [
            0b00000, 0b00001, 0b00010, 0b00011, 0b00100, 0b00110, 0b00111, 0b01000, 0b01100,
            0b01110, 0b01111, 0b10000, 0b11000, 0b11100, 0b11110, 0b11111,
        ];
        assert_eq!(at_most_2(4), d4);
        assert_eq!(at_most_2(5), d5);
    }

    /// The document counts them: a code is the places at which its bits change.
    #[test]
    fn as_many_codes_as_ways_to_choose_the_changes() {
        let mut ways = vec![1];
        for m in 1..=12 {
            let padded = [&[0], &ways[..], &[0]].concat();
            ways = padded.windows(2).map(|pair| pair[0] + pair[1]).collect();
            let mut codes = vec![0; m + 1];
            (0..1 << m).for_each(|p| codes[interval_number(p) as usize] += 1);
            assert_eq!(codes, ways, "{m} lines");
        }
    }
}
