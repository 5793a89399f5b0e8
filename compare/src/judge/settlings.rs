//! Generated settlings through the C entry.

use super::copies;
use super::expect::expect;
use super::guarded::agreed;
use super::kind::{dashed, Kind};
use super::met::Met;
use super::stage_bounds;
use crate::entries;
use crate::intervals::interval_number;
use crate::rng::Rng;
use crate::seen_from_c::{self, settled, Done};
use crate::settling::{MOST_COMPETITORS, MOST_LINES};
use crate::slowest;

#[derive(Debug)]
struct Case {
    m: u32,
    numbers: Vec<u16>,
    /// Half a number at the end of the list, to be passed over.
    odd_byte: bool,
    buffer: usize,
    start: u32,
}

fn greatest(m: u32) -> u16 {
    ((1u32 << m) - 1) as u16
}

/// A number within m lines, often at an edge.
fn number(m: u32, rng: &mut Rng) -> u16 {
    let most = greatest(m);
    match rng.below(8) {
        0 => 0,
        1 => most,
        _ => rng.between(0, u64::from(most)) as u16,
    }
}

/// What the lines may carry at first, often nothing or all.
fn start(m: u32, rng: &mut Rng) -> u32 {
    let most = u32::from(greatest(m));
    let any = rng.between(0, u64::from(most)) as u32;
    *rng.pick(&[0, most, any, any])
}

fn list_length(rng: &mut Rng) -> u64 {
    match rng.below(8) {
        0 => *rng.pick(&[0, 1, 63, 64]),
        1..=4 => rng.between(0, 8),
        _ => rng.between(0, 64),
    }
}

fn sound(rng: &mut Rng) -> Case {
    let m = rng.between(1, 12) as u32;
    let numbers = (0..list_length(rng)).map(|_| number(m, rng)).collect();
    let needed = 2 * (m as usize + 1);
    Case {
        m,
        numbers,
        odd_byte: rng.chance(1, 4),
        buffer: needed + *rng.pick(&[0, 1, 2, 3, 40]),
        start: start(m, rng),
    }
}

/// Few different numbers, many times each.
fn repeated(rng: &mut Rng) -> Case {
    let mut case = sound(rng);
    let few: Vec<u16> = (0..rng.between(1, 3))
        .map(|_| number(case.m, rng))
        .collect();
    case.numbers = (0..list_length(rng)).map(|_| *rng.pick(&few)).collect();
    case
}

/// The others follow the greatest number down to one of its ones, have a 0 there and ones below.
/// Each makes the greatest number wait for a stage; as many as m stages come about.
fn deep(rng: &mut Rng) -> Case {
    let mut case = sound(rng);
    let any = number(case.m, rng) | 1 << (case.m - 1);
    let greatest = *rng.pick(&[slowest::alternating(case.m), any]);
    let ones: Vec<u32> = (0..case.m).filter(|j| greatest >> j & 1 == 1).collect();
    let parting_at = |one: u32| (greatest >> one << one) - 1;
    case.numbers = (0..rng.between(1, 14))
        .map(|_| parting_at(*rng.pick(&ones)))
        .collect();
    case.numbers.push(greatest);
    case
}

/// A start from which nothing is gained: lines at 0, or, where no competitor sets the top line, any
/// with the top line set, which takes a stage to bring every line to 0.
fn slowest_start(m: u32, competing: u16, rng: &mut Rng) -> u32 {
    let top = 1 << (m - 1);
    match u32::from(competing) & top {
        0 => top + rng.below(top.into()) as u32,
        _ => 0,
    }
}

/// The greatest number with all its rivals, and some others below it, which change nothing: there
/// are exactly as many stages as the greatest number has intervals, and one more from lines that
/// have to come to 0 first.
fn slowest_below(greatest: u16, case: &mut Case, rng: &mut Rng) {
    case.start = slowest_start(case.m, greatest, rng);
    case.numbers = slowest::rivals(greatest);
    for _ in 0..rng.between(0, 8) {
        case.numbers
            .push(rng.between(0, u64::from(greatest)) as u16);
    }
    case.numbers.push(greatest);
    rng.shuffle(&mut case.numbers);
}

fn reaching(case: &Case, stages: u32, rng: &mut Rng, met: &mut Met) -> Result<(), String> {
    let found = done(case, rng, met)?.t;
    expect(found, stages).map_err(|what| format!("{case:?}: stages {what}"))
}

fn reaching_the_intervals(rng: &mut Rng, met: &mut Met) -> Result<(), String> {
    let mut case = sound(rng);
    let greatest = number(case.m, rng);
    slowest_below(greatest, &mut case, rng);
    let to_come_to_0 = u32::from(case.start != 0);
    reaching(&case, interval_number(greatest) + to_come_to_0, rng, met)
}

/// Both bounds at once, as P1 has it on 4 lines. Either the greatest number has its top line set,
/// or it leaves that line alone and the lines have to come to 0 first.
fn reaching_the_lines(m: u32) -> Kind {
    Kind::new(format!("settling-reaching-m-{m}"), 2, move |rng, met| {
        let mut case = sound(rng);
        case.m = m;
        case.buffer = 2 * (m as usize + 1);
        let greatest = *rng.pick(&[slowest::alternating(m), slowest::alternating(m - 1)]);
        slowest_below(greatest, &mut case, rng);
        reaching(&case, m, rng, met)
    })
}

/// The settled lines, and how many entries of the list equal them.
fn lines_and_copies(case: &Case, rng: &mut Rng, met: &mut Met) -> Result<(u16, u32), String> {
    let (answer, buffer) = both(case, rng, met)?;
    let Done { t, copies } = accepted(case, answer)?;
    Ok((seen_from_c::numbers(&buffer)[t as usize], copies))
}

/// The same list from another start settles to the same lines, with as many copies.
fn from_another_start(rng: &mut Rng, met: &mut Met) -> Result<(), String> {
    let mut case = sound(rng);
    let settled = lines_and_copies(&case, rng, met)?;
    case.start = start(case.m, rng);
    expect(lines_and_copies(&case, rng, met)?, settled).map_err(|what| format!("{case:?}: {what}"))
}

fn copied(case: &Case, copies: u32, rng: &mut Rng, met: &mut Met) -> Result<(), String> {
    let found = done(case, rng, met)?.copies;
    expect(found, copies).map_err(|what| format!("{case:?}: copies {what}"))
}

/// Copies of the greatest number, often as many as a list can have, and others below it.
fn cloned_winners(rng: &mut Rng, met: &mut Met) -> Result<(), String> {
    let mut case = sound(rng);
    let greatest = number(case.m, rng);
    let most = MOST_COMPETITORS as u64;
    let any = rng.between(1, most);
    let copies = *rng.pick(&[1, 2, most - 1, most, any]);
    case.numbers = vec![greatest; copies as usize];
    if greatest > 0 {
        let others = rng.between(0, most - copies);
        let below = (0..others).map(|_| rng.below(greatest.into()) as u16);
        case.numbers.extend(below);
    }
    rng.shuffle(&mut case.numbers);
    copied(&case, copies as u32, rng, met)
}

/// Copies of a number, often 63 of them, that lose to one greater number.
fn cloned_losers(rng: &mut Rng, met: &mut Met) -> Result<(), String> {
    let mut case = sound(rng);
    let winner = number(case.m, rng).max(1);
    let loser = rng.below(winner.into()) as u16;
    let most = MOST_COMPETITORS as u64 - 1;
    let any = rng.between(1, most);
    case.numbers = vec![loser; *rng.pick(&[most, any]) as usize];
    case.numbers.push(winner);
    rng.shuffle(&mut case.numbers);
    copied(&case, 1, rng, met)
}

/// No number brings every line to 0.
fn of_no_number(rng: &mut Rng, met: &mut Met) -> Result<(), String> {
    let mut case = sound(rng);
    case.numbers.clear();
    reaching(&case, u32::from(case.start != 0), rng, met)
}

/// Anything at all, near the edges.
fn noisy(rng: &mut Rng) -> Case {
    let m = rng.between(0, 16) as u32;
    let edge = 1u32 << m;
    let edges = [0, edge - 1, edge, edge + 1, 65535, rng.below(65536) as u32];
    let length = rng.between(0, 70);
    let wild = rng.chance(1, 4);
    let numbers = (0..length)
        .map(|_| {
            if wild {
                *rng.pick(&edges)
            } else {
                rng.below(edge.into()) as u32
            }
        })
        .map(|number| number.min(65535) as u16)
        .collect();
    let around = 2 * (u64::from(m) + 1);
    Case {
        m,
        numbers,
        odd_byte: rng.chance(1, 2),
        buffer: rng.between(around - 2, around + 3) as usize,
        start: *rng.pick(&[0, 0, edge - 1, edge, edge + 1, edges[5]]),
    }
}

/// Puts one fault into a case; a fault of a greater number has to come first.
fn spoil(case: &mut Case, refusal: u32, rng: &mut Rng) {
    match refusal {
        25 => {
            // 65536 would be 0 in two bytes.
            let edge = 1 << case.m;
            let any = rng.between(edge.into(), u32::MAX.into()) as u32;
            case.start = *rng.pick(&[edge, edge + 1, 1 << 16, (1 << 16) + 1, u32::MAX, any]);
        }
        24 => case.buffer = rng.below(2 * (u64::from(case.m) + 1)) as usize,
        23 => {
            let edge = 1u64 << case.m;
            let any = rng.between(edge, 65535);
            let over = *rng.pick(&[edge, 65535, any]) as u16;
            if case.numbers.len() < 64 {
                case.numbers.push(0);
            }
            let at = rng.below(case.numbers.len() as u64) as usize;
            case.numbers[at] = over;
        }
        22 => {
            let length = rng.between(65, 70) as usize;
            while case.numbers.len() < length {
                case.numbers.push(number(case.m, rng));
            }
        }
        21 => case.m = *rng.pick(&[0, 13, 14, 15, 16, 17, 256 + 4, 1 << 16, 1 << 31, u32::MAX]),
        _ => panic!("settling has no refusal {refusal}"),
    }
}

/// A sound case is done, and not refused.
fn accepted(case: &Case, answer: Result<Done, u32>) -> Result<Done, String> {
    answer.map_err(|refusal| format!("{case:?}: a sound case gives {refusal}"))
}

fn done(case: &Case, rng: &mut Rng, met: &mut Met) -> Result<Done, String> {
    let (answer, _) = both(case, rng, met)?;
    accepted(case, answer)
}

/// The answer that both give, and what both leave in the buffer.
fn both(case: &Case, rng: &mut Rng, met: &mut Met) -> Result<(Result<Done, u32>, Vec<u8>), String> {
    let mut competing = seen_from_c::bytes(&case.numbers);
    if case.odd_byte {
        competing.push(rng.byte());
    }
    let (answer, buffer) = agreed(
        case.buffer,
        rng,
        |buffer| entries::settle(case.m, &competing, buffer, case.start),
        |buffer| seen_from_c::settle(case.m, &competing, buffer, case.start),
    )
    .map_err(|what| format!("{case:?}: {what}"))?;
    let answer = settled(answer);
    match answer {
        Ok(done) => hold_done(case, done, met)?,
        Err(refusal) => met.meet(refusal),
    }
    Ok((answer, buffer))
}

/// What any list that is done keeps to.
fn hold_done(case: &Case, done: Done, met: &mut Met) -> Result<(), String> {
    stage_bounds::hold(case.m, &case.numbers, done.t, met)?;
    copies::hold_list(case.m, &case.numbers, done.copies, met)
}

fn of(make: fn(&mut Rng) -> Case) -> impl Fn(&mut Rng, &mut Met) -> Result<(), String> {
    move |rng, met| {
        let case = make(rng);
        done(&case, rng, met).map(|_| ())
    }
}

/// The faults together give the refusal of the least number.
fn refused(faults: Vec<u32>) -> impl Fn(&mut Rng, &mut Met) -> Result<(), String> {
    move |rng, met| {
        let mut case = sound(rng);
        for &fault in faults.iter().rev() {
            spoil(&mut case, fault, rng);
        }
        match both(&case, rng, met)?.0 {
            Err(refusal) if refusal == faults[0] => Ok(()),
            answer => Err(format!("faults {faults:?} give {answer:?}")),
        }
    }
}

/// Every choice of one or more of these numbers, rising.
fn choices(numbers: &[u32]) -> Vec<Vec<u32>> {
    (1u32..1 << numbers.len())
        .map(|set| {
            let chosen = |i: &usize| set >> i & 1 == 1;
            (0..numbers.len())
                .filter(chosen)
                .map(|i| numbers[i])
                .collect()
        })
        .collect()
}

pub fn kinds() -> Vec<Kind> {
    let mut kinds = vec![
        Kind::new("settling-sound", 60, of(sound)),
        Kind::new("settling-repeated", 20, of(repeated)),
        Kind::new("settling-deep", 20, of(deep)),
        Kind::new("settling-reaching-intervals", 20, reaching_the_intervals),
        Kind::new("settling-from-another-start", 20, from_another_start),
        Kind::new("settling-of-cloned-winners", 20, cloned_winners),
        Kind::new("settling-of-cloned-losers", 10, cloned_losers),
        Kind::new("settling-of-no-number", 5, of_no_number),
        Kind::new("settling-noisy", 40, |rng, met| {
            let case = noisy(rng);
            both(&case, rng, met).map(|_| ())
        }),
    ];
    kinds.extend((1..=MOST_LINES).map(reaching_the_lines));
    for faults in choices(&[21, 22, 23, 24, 25]) {
        let name = format!("settling-refused-{}", dashed(&faults));
        kinds.push(Kind::new(name, 5, refused(faults)));
    }
    kinds
}
