//! How many stages a settling takes at most, whatever the lines start from: m, and by the
//! interval-number of the greatest competing number.

use super::met::Met;
use crate::intervals::interval_number;
use crate::settling::MOST_LINES;

/// A bound beside m, and what it is called.
struct Bound {
    stages: u32,
    name: &'static str,
}

/// One stage more than the interval-number, except where the greatest number has its top line set.
/// An empty list has no greatest number and takes one stage at most.
fn bound(m: u32, numbers: &[u16]) -> Bound {
    let (stages, name) = match numbers.iter().max() {
        None => (1, "no-number"),
        Some(&greatest) if greatest >> (m - 1) & 1 == 1 => {
            (interval_number(greatest), "interval-number")
        }
        Some(&greatest) => (interval_number(greatest) + 1, "interval-number-and-one"),
    };
    Bound { stages, name }
}

fn name(by: &str, m: u32) -> String {
    format!("stages-by-{by}-m-{m:02}")
}

pub fn bounds() -> Vec<String> {
    let each = [
        "lines",
        "no-number",
        "interval-number",
        "interval-number-and-one",
    ];
    (1..=MOST_LINES)
        .flat_map(|m| each.map(|by| name(by, m)))
        .collect()
}

/// The stages t that the product gave for an accepted list.
pub fn hold(m: u32, numbers: &[u16], t: u32, met: &mut Met) -> Result<(), String> {
    let Bound { stages, name: by } = bound(m, numbers);
    if t > stages || t > m {
        return Err(format!(
            "m {m}, numbers {numbers:?}: {t} stages, at most {m} and by {by} at most {stages}"
        ));
    }
    met.stay_within_bound(&name(by, m), t == stages);
    met.stay_within_bound(&name("lines", m), t == m);
    Ok(())
}

#[cfg(test)]
mod tests {
    use super::bound;

    #[test]
    fn the_bound_beside_m() {
        let stages = |m, numbers: &[u16]| bound(m, numbers).stages;
        assert_eq!(stages(4, &[]), 1);
        assert_eq!(stages(4, &[0]), 1);
        assert_eq!(stages(4, &[2, 5, 9, 10]), 4);
        assert_eq!(stages(5, &[2, 5, 9, 10]), 5);
        assert_eq!(stages(1, &[1, 0]), 1);
        assert_eq!(stages(3, &[4]), 2);
        assert_eq!(stages(4, &[4]), 3);
    }
}
