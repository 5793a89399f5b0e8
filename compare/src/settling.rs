//! Settling of wired-OR lines, line by line and stage by stage.

/// The lines by index: line 0 is the least significant.
pub type Lines = Vec<bool>;

pub const MOST_LINES: u32 = 12;
pub const MOST_COMPETITORS: usize = 64;

pub fn bits(number: u16, m: usize) -> Lines {
    (0..m).map(|j| number >> j & 1 == 1).collect()
}

pub fn value(lines: &Lines) -> u16 {
    (0..lines.len()).map(|j| u16::from(lines[j]) << j).sum()
}

/// What a competitor applies to line j when it sees the lines as they stood before.
fn applies(own: &Lines, before: &Lines, j: usize) -> bool {
    let beaten = (j + 1..before.len()).any(|above| before[above] && !own[above]);
    !beaten && own[j]
}

fn next_stage(competitors: &[Lines], before: &Lines) -> Lines {
    (0..before.len())
        .map(|j| competitors.iter().any(|own| applies(own, before, j)))
        .collect()
}

/// The lines after stage 0, 1 and so on up to t, the last stage that is not a repetition.
fn stages(competitors: &[Lines], start: Lines) -> Vec<Lines> {
    let mut seen = vec![start];
    loop {
        let last = &seen[seen.len() - 1];
        let next = next_stage(competitors, last);
        if next == *last {
            return seen;
        }
        seen.push(next);
    }
}

fn refusal(m: u32, numbers: &[u16], places: usize, start: u32) -> Option<u32> {
    if !(1..=MOST_LINES).contains(&m) {
        return Some(21);
    }
    if numbers.len() > MOST_COMPETITORS {
        return Some(22);
    }
    let greatest = (1 << m) - 1;
    if numbers.iter().any(|&number| u32::from(number) > greatest) {
        return Some(23);
    }
    if places < m as usize + 1 {
        return Some(24);
    }
    (start > greatest).then_some(25)
}

/// What a list settles to.
#[derive(Debug, PartialEq, Eq)]
pub struct Settled {
    /// The lines as numbers from stage 0 to stage t. Stage 0 is the start.
    pub stages: Vec<u16>,
    /// How many entries of the list equal the settled lines: the figure of request A9.
    pub copies: u8,
}

impl Settled {
    pub fn lines(&self) -> u16 {
        self.stages[self.stages.len() - 1]
    }

    pub fn t(&self) -> u8 {
        self.stages.len() as u8 - 1
    }
}

/// The settled lines and how they came about, or the refusal.
/// `places` is the number of entries in the buffer that the caller lends.
pub fn settle(m: u32, numbers: &[u16], places: usize, start: u32) -> Result<Settled, u32> {
    if let Some(number) = refusal(m, numbers, places, start) {
        return Err(number);
    }
    let m = m as usize;
    let competitors: Vec<Lines> = numbers.iter().map(|&number| bits(number, m)).collect();
    let stages = stages(&competitors, bits(start as u16, m));
    let settled = &stages[stages.len() - 1];
    let equal = competitors.iter().filter(|own| *own == settled);
    Ok(Settled {
        copies: equal.count() as u8,
        stages: stages.iter().map(value).collect(),
    })
}

#[cfg(test)]
mod tests {
    use super::settle;

    fn copies(m: u32, numbers: &[u16], start: u32) -> Result<u8, u32> {
        settle(m, numbers, m as usize + 1, start).map(|settled| settled.copies)
    }

    #[test]
    fn entries_that_equal_the_settled_lines() {
        assert_eq!(copies(3, &[5, 5], 0), Ok(2));
        assert_eq!(copies(3, &[5, 6, 5], 0), Ok(1));
        assert_eq!(copies(3, &[5, 6, 5], 7), Ok(1));
        assert_eq!(copies(12, &[4095; 64], 0), Ok(64));
        assert_eq!(copies(1, &[0], 0), Ok(1));
        assert_eq!(copies(1, &[0, 0], 1), Ok(2));
    }

    #[test]
    fn none_of_an_empty_list_or_a_refused_one() {
        assert_eq!(copies(4, &[], 0), Ok(0));
        assert_eq!(copies(4, &[], 15), Ok(0));
        assert_eq!(copies(4, &[5; 65], 0), Err(22));
        assert_eq!(copies(4, &[16, 16], 0), Err(23));
    }
}
