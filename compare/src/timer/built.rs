//! Runs that are built to end with a slow arbitration, for racks with too many states to try all.

use crate::run::Run;
use compare::slowest;
use compare::table::greatest_number;

/// Every card is in the table. Who competes at the end is chosen; how many stages that takes is
/// seen from the run.
pub fn slow_run(file: &[u8]) -> Run {
    let mut run = Run::fresh(file);
    let table = run.rack.table;
    let m = run.rack.lines();
    let top_line_idle = table.rule == 2;
    let wanted = slowest::list(m - u32::from(top_line_idle))
        .into_iter()
        .map(|number| Competitor::of(number, table.k));
    let wanted: Vec<Competitor> = wanted.collect();
    match table.rule {
        1 => ask_behind_a_winner(&mut run, &wanted),
        2 => ask_and_lose(&mut run, &wanted),
        _ => run.all_ask(wanted.iter().map(|competitor| competitor.card)),
    }
    run.grant();
    run
}

/// A competing number in two parts, as the rules put it together.
struct Competitor {
    card: u8,
    /// The waiting count under rule 2.
    above: u8,
}

impl Competitor {
    fn of(number: u16, k: u8) -> Competitor {
        Competitor {
            card: (number % (1 << k)) as u8,
            above: (number >> k) as u8,
        }
    }
}

/// Rule 1: the last winner parts the numbers with a 0 in the card's top bit, which are all less,
/// from those with a 1.
fn ask_behind_a_winner(run: &mut Run, wanted: &[Competitor]) {
    let winner = 1 << (run.rack.table.k - 1);
    run.push('Q', winner);
    run.grant_and_release();
    run.all_ask(wanted.iter().map(|competitor| competitor.card));
}

/// Rule 2: the grant before the slow one goes to card 1 with a count that sets the top line, so that
/// all lines have to come to 0 first. To lose so often it asks with as many greater cards. Those of
/// the wanted with the greatest count ask together when as many losses are still to come; for
/// another count whoever was granted last asks again. These are the greatest cards, whose top bit a
/// rival needs at some widths.
fn ask_and_lose(run: &mut Run, wanted: &[Competitor]) {
    let losses = 1 << (run.rack.table.k - 1);
    let count = wanted[0].above;
    let (together, later): (Vec<&Competitor>, Vec<&Competitor>) =
        wanted.iter().partition(|other| other.above == count);
    let together: Vec<u8> = together.iter().map(|competitor| competitor.card).collect();
    let greater = (2..=greatest_number(run.rack.table.k)).rev();
    let others = greater.filter(|card| !together.contains(card));
    run.all_ask(others.take(usize::from(losses)).chain([1]));
    for still_to_come in (0..=losses).rev() {
        let winner = run.grant_and_release();
        if still_to_come == count {
            run.all_ask(together.iter().copied());
        } else if later.iter().any(|other| other.above == still_to_come) {
            run.push('Q', winner);
        }
    }
}
