//! Elections on named states: who may follow whom, what an elected card can't do, and what its
//! release, its election and its grant do to the state.

use super::asked::hold_expecting;
use super::expect::expect;
use super::kind::Kind;
use super::met::Met;
use super::named_tables::file_with;
use crate::rack::{Bus, Rack};
use crate::rackstate::Shared;
use crate::seen_as_bytes::{self, Ask};

/// Cards 2, 5 and 6 at k = 3, of which these wait. The elected card, or else the holder, won last.
fn state(rule: u8, bus: Bus, waiting: &[u8]) -> Rack {
    let (mut rack, _) = Rack::load(&file_with(3, rule, &[(2, 1), (5, 2), (6, 3)]));
    rack.bus = bus;
    rack.last_winner = bus.elected().or(bus.holder()).unwrap_or(0);
    for &card in waiting {
        rack.waiting[usize::from(card)] = true;
    }
    rack.waiters = rack.recount();
    rack
}

const fn followed(holder: u8, elected: u8) -> Bus {
    Bus::Followed { holder, elected }
}

/// The card no longer waits, and won last with these lines.
fn won(rack: &mut Rack, card: u8, lines: u16, bus: Bus) {
    rack.waiting[usize::from(card)] = false;
    rack.waiters -= 1;
    rack.last_winner = card;
    rack.kept = lines;
    rack.bus = bus;
}

/// What is asked of a state, the number and the winner of the answer, and how the state changes.
struct Known {
    name: &'static str,
    given: fn() -> Rack,
    ask: (u8, u8),
    answer: (u32, u8),
    change: fn(&mut Rack),
}

const KEPT: fn(&mut Rack) = |_| {};

fn arbitrations() -> Vec<Known> {
    vec![
        Known {
            name: "a-free-bus-is-granted-at-once",
            given: || state(1, Bus::Free, &[2, 5]),
            ask: (b'A', 0),
            answer: (0, 5),
            change: |rack| won(rack, 5, 5, Bus::Held(5)),
        },
        Known {
            name: "a-held-bus-elects",
            given: || state(1, Bus::Held(6), &[2, 5]),
            ask: (b'A', 0),
            answer: (0, 5),
            change: |rack| won(rack, 5, 13, followed(6, 5)),
        },
        Known {
            name: "the-holder-may-be-elected",
            given: || state(1, Bus::Held(6), &[6]),
            ask: (b'A', 0),
            answer: (0, 6),
            change: |rack| won(rack, 6, 6, followed(6, 6)),
        },
        Known {
            name: "the-holder-is-not-elected-before-others",
            given: || state(1, Bus::Held(6), &[2, 6]),
            ask: (b'A', 0),
            answer: (0, 2),
            change: |rack| won(rack, 2, 10, followed(6, 2)),
        },
        Known {
            name: "14-on-a-held-bus",
            given: || state(1, Bus::Held(6), &[]),
            ask: (b'A', 0),
            answer: (14, 0),
            change: KEPT,
        },
        Known {
            name: "13-where-a-card-is-elected",
            given: || state(1, followed(6, 5), &[2]),
            ask: (b'A', 0),
            answer: (13, 0),
            change: KEPT,
        },
        Known {
            name: "13-where-the-holder-is-elected",
            given: || state(1, followed(6, 6), &[2]),
            ask: (b'A', 0),
            answer: (13, 0),
            change: KEPT,
        },
        Known {
            name: "13-where-the-elected-card-waits",
            given: || state(1, followed(6, 5), &[5]),
            ask: (b'A', 0),
            answer: (13, 0),
            change: KEPT,
        },
        Known {
            name: "13-before-14",
            given: || state(1, followed(6, 5), &[]),
            ask: (b'A', 0),
            answer: (13, 0),
            change: KEPT,
        },
        Known {
            name: "13-before-16",
            given: || {
                let mut rack = state(2, followed(6, 5), &[2, 6]);
                (rack.counts[2], rack.counts[6]) = (7, 7);
                rack
            },
            ask: (b'A', 0),
            answer: (13, 0),
            change: KEPT,
        },
    ]
}

fn requests() -> Vec<Known> {
    vec![
        Known {
            name: "12-by-the-elected-card",
            given: || state(1, followed(6, 5), &[2]),
            ask: (b'Q', 5),
            answer: (12, 0),
            change: KEPT,
        },
        Known {
            name: "12-by-the-elected-holder",
            given: || state(1, followed(5, 5), &[2]),
            ask: (b'Q', 5),
            answer: (12, 0),
            change: KEPT,
        },
        Known {
            name: "12-by-the-elected-card-that-waits",
            given: || state(1, followed(6, 5), &[5]),
            ask: (b'Q', 5),
            answer: (12, 0),
            change: KEPT,
        },
        Known {
            name: "a-request-by-the-holder-before-the-elected-card",
            given: || state(1, followed(6, 5), &[2]),
            ask: (b'Q', 6),
            answer: (0, 0),
            change: |rack| (rack.waiting[6], rack.waiters) = (true, 2),
        },
        Known {
            name: "a-request-by-the-elected-card-once-it-holds",
            given: || state(1, Bus::Held(5), &[2]),
            ask: (b'Q', 5),
            answer: (0, 0),
            change: |rack| (rack.waiting[5], rack.waiters) = (true, 2),
        },
        Known {
            name: "11-before-12",
            given: || state(1, followed(6, 5), &[]),
            ask: (b'Q', 3),
            answer: (11, 0),
            change: KEPT,
        },
    ]
}

fn releases() -> Vec<Known> {
    vec![
        Known {
            name: "a-release-hands-the-bus-on",
            given: || state(1, followed(6, 5), &[2]),
            ask: (b'R', 6),
            answer: (0, 0),
            change: |rack| rack.bus = Bus::Held(5),
        },
        Known {
            name: "a-release-hands-the-bus-to-the-holder-itself",
            given: || state(1, followed(5, 5), &[2]),
            ask: (b'R', 5),
            answer: (0, 0),
            change: |rack| rack.bus = Bus::Held(5),
        },
        Known {
            name: "a-release-hands-the-bus-to-a-card-that-waits",
            given: || state(1, followed(6, 5), &[5]),
            ask: (b'R', 6),
            answer: (0, 0),
            change: |rack| rack.bus = Bus::Held(5),
        },
        Known {
            name: "a-release-frees-the-bus",
            given: || state(1, Bus::Held(5), &[2]),
            ask: (b'R', 5),
            answer: (0, 0),
            change: |rack| rack.bus = Bus::Free,
        },
        Known {
            name: "15-by-the-elected-card",
            given: || state(1, followed(6, 5), &[2]),
            ask: (b'R', 5),
            answer: (15, 0),
            change: KEPT,
        },
        Known {
            name: "15-by-a-third-card",
            given: || state(1, followed(6, 5), &[2]),
            ask: (b'R', 2),
            answer: (15, 0),
            change: KEPT,
        },
        Known {
            name: "11-before-15",
            given: || state(1, followed(6, 5), &[2]),
            ask: (b'R', 3),
            answer: (11, 0),
            change: KEPT,
        },
    ]
}

/// Under rule 2 with these counts.
fn counting(bus: Bus, counts: &[(u8, u8)]) -> Rack {
    let cards: Vec<u8> = counts.iter().map(|&(card, _)| card).collect();
    let mut rack = state(2, bus, &cards);
    for &(card, count) in counts {
        rack.counts[usize::from(card)] = count;
    }
    rack
}

/// Under rule 4 with these cards inhibited.
fn inhibiting(bus: Bus, waiting: &[u8], inhibited: &[u8]) -> Rack {
    let mut rack = state(4, bus, waiting);
    for &card in inhibited {
        rack.inhibited[usize::from(card)] = true;
    }
    rack
}

/// Under rule 3 with these cards in the batch.
fn batching(bus: Bus, waiting: &[u8], batch: &[u8]) -> Rack {
    let mut rack = state(3, bus, waiting);
    for &card in batch {
        rack.batch[usize::from(card)] = true;
    }
    rack
}

fn under_other_rules() -> Vec<Known> {
    vec![
        Known {
            name: "losers-of-an-election-count",
            given: || counting(Bus::Held(6), &[(2, 1), (5, 0)]),
            ask: (b'A', 0),
            answer: (0, 2),
            change: |rack| {
                won(rack, 2, 10, followed(6, 2));
                (rack.counts[2], rack.counts[5]) = (0, 1);
            },
        },
        Known {
            name: "16-at-an-election",
            given: || counting(Bus::Held(6), &[(2, 7), (5, 7)]),
            ask: (b'A', 0),
            answer: (16, 0),
            change: KEPT,
        },
        Known {
            name: "the-elected-card-leaves-the-batch",
            given: || batching(Bus::Held(6), &[2, 5, 6], &[2, 5]),
            ask: (b'A', 0),
            answer: (0, 5),
            change: |rack| {
                won(rack, 5, 5, followed(6, 5));
                rack.batch[5] = false;
            },
        },
        Known {
            name: "an-election-forms-a-batch",
            given: || batching(Bus::Held(6), &[2, 6], &[]),
            ask: (b'A', 0),
            answer: (0, 6),
            change: |rack| {
                won(rack, 6, 6, followed(6, 6));
                rack.batch[2] = true;
            },
        },
    ]
}

fn inhibitions() -> Vec<Known> {
    vec![
        Known {
            name: "a-grant-inhibits",
            given: || inhibiting(Bus::Free, &[2, 5], &[]),
            ask: (b'A', 0),
            answer: (0, 5),
            change: |rack| {
                won(rack, 5, 5, Bus::Held(5));
                rack.inhibited[5] = true;
            },
        },
        Known {
            name: "an-election-inhibits",
            given: || inhibiting(Bus::Held(6), &[2, 5, 6], &[6]),
            ask: (b'A', 0),
            answer: (0, 5),
            change: |rack| {
                won(rack, 5, 5, followed(6, 5));
                rack.inhibited[5] = true;
            },
        },
        Known {
            name: "an-election-clears-and-then-inhibits-its-winner",
            given: || inhibiting(Bus::Held(6), &[2, 6], &[2, 5, 6]),
            ask: (b'A', 0),
            answer: (0, 6),
            change: |rack| {
                won(rack, 6, 6, followed(6, 6));
                (rack.inhibited[2], rack.inhibited[5]) = (false, false);
            },
        },
        Known {
            name: "a-grant-clears-and-then-inhibits-its-winner",
            given: || inhibiting(Bus::Free, &[2, 5], &[2, 5, 6]),
            ask: (b'A', 0),
            answer: (0, 5),
            change: |rack| {
                won(rack, 5, 5, Bus::Held(5));
                (rack.inhibited[2], rack.inhibited[6]) = (false, false);
            },
        },
        Known {
            name: "a-release-inhibits-nobody",
            given: || inhibiting(Bus::Held(6), &[2], &[5]),
            ask: (b'R', 6),
            answer: (0, 0),
            change: |rack| rack.bus = Bus::Free,
        },
        Known {
            name: "a-release-that-hands-on-inhibits-nobody",
            given: || inhibiting(followed(6, 5), &[2], &[2]),
            ask: (b'R', 6),
            answer: (0, 0),
            change: |rack| rack.bus = Bus::Held(5),
        },
        Known {
            name: "a-refused-election-clears-nothing",
            given: || inhibiting(followed(6, 5), &[2], &[2, 6]),
            ask: (b'A', 0),
            answer: (13, 0),
            change: KEPT,
        },
    ]
}

fn all() -> Vec<Known> {
    let groups = [
        arbitrations(),
        requests(),
        releases(),
        under_other_rules(),
        inhibitions(),
    ];
    groups.into_iter().flatten().collect()
}

/// An answer with the state that it should return.
fn judge(known: &Known, answer: &[u8]) -> Result<(), String> {
    let (returned, report) = answer.split_at(seen_as_bytes::STATE);
    let mut stated = (known.given)();
    (known.change)(&mut stated);
    expect(seen_as_bytes::rack(returned), stated)?;
    expect((u32::from(report[0]), report[1]), known.answer)
}

fn asked(known: &Known) -> Ask {
    let (letter, number) = known.ask;
    Ask { letter, number }
}

fn hold(known: &Known, program: &Shared, met: &mut Met) -> Result<(), String> {
    let rack = (known.given)();
    expect(rack.is_well_formed(), true)?;
    let answer = hold_expecting(known.answer.0, &rack, asked(known), program, met)?;
    judge(known, &answer)
}

pub fn kinds(program: &Shared) -> Vec<Kind> {
    let kind = |known: Known| {
        let by = program.clone();
        Kind::named(format!("election-{}", known.name), move |met| {
            hold(&known, &by, met)
        })
    };
    all().into_iter().map(kind).collect()
}

#[cfg(test)]
mod tests {
    use super::{all, asked, judge};
    use crate::seen_as_bytes::{answer, record};

    #[test]
    fn the_reference_does_as_stated() {
        for known in all() {
            let rack = (known.given)();
            assert!(rack.is_well_formed(), "{}", known.name);
            let answer = answer(&record(&rack, asked(&known)));
            assert_eq!(judge(&known, &answer), Ok(()), "{}", known.name);
        }
    }
}
