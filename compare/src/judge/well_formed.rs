//! 16 and 17 on named states. No file and no trace leads to one, so they go to `rackstate`.

use super::asked::hold_expecting;
use super::expect::expect;
use super::kind::Kind;
use super::met::Met;
use super::named_tables::{file_with, WORKED_TABLE};
use super::next_winners::NEXT;
use crate::rack::{Bus, Rack};
use crate::rackstate::Shared;
use crate::seen_as_bytes::{self, Ask};

const ARBITRATE: Ask = Ask {
    letter: b'A',
    number: 0,
};

const COUNT: Ask = Ask {
    letter: b'N',
    number: 0,
};

/// Three events, one of them by a number that no table has, a save with enough bytes, how many cards
/// wait, and who is next, under each rule that a fault comes with.
const ASKED: [Ask; 7] = [
    Ask {
        letter: b'Q',
        number: 2,
    },
    Ask {
        letter: b'Q',
        number: 0,
    },
    ARBITRATE,
    Ask {
        letter: b'R',
        number: 5,
    },
    Ask {
        letter: b'S',
        number: 30,
    },
    COUNT,
    NEXT,
];

/// The number of waiting cards follows.
fn wait(rack: &mut Rack, card: u8) {
    rack.waiting[usize::from(card)] = true;
    rack.waiters = rack.recount();
}

/// The elected card is the last winner.
fn elect(rack: &mut Rack, holder: u8, elected: u8) {
    rack.bus = Bus::Followed { holder, elected };
    rack.last_winner = elected;
}

/// Whatever is asked of the worked table's fresh state with one fault gives 17.
fn ill_formed(program: &Shared, name: &str, fault: fn(&mut Rack)) -> Kind {
    let program = program.clone();
    Kind::named(format!("17-{name}"), move |met| {
        let (mut rack, _) = Rack::load(&WORKED_TABLE);
        expect(rack.is_well_formed(), true)?;
        fault(&mut rack);
        expect(rack.is_well_formed(), false)?;
        ASKED
            .iter()
            .try_for_each(|&ask| hold_expecting(17, &rack, ask, &program, met).map(|_| ()))
    })
}

type Fault = (&'static str, fn(&mut Rack));

fn ill_formed_states() -> Vec<Fault> {
    vec![
        ("k-0", |rack| rack.table.k = 0),
        ("k-7", |rack| rack.table.k = 7),
        ("rule-5", |rack| rack.table.rule = 5),
        ("no-card", |rack| rack.table.slots = [0; 64]),
        ("slot-of-number-0", |rack| rack.table.slots[0] = 9),
        ("number-over-k", |rack| rack.table.slots[8] = 9),
        ("slot-64", |rack| rack.table.slots[2] = 64),
        ("slot-twice", |rack| rack.table.slots[2] = 3),
        ("stranger-waits", |rack| wait(rack, 3)),
        ("stranger-won", |rack| rack.last_winner = 3),
        ("last-winner-64", |rack| rack.last_winner = 64),
        ("stranger-holds", |rack| {
            rack.bus = Bus::Held(3);
            rack.last_winner = 3;
        }),
        ("holder-is-not-the-last-winner", |rack| {
            rack.bus = Bus::Held(5);
            rack.last_winner = 2;
        }),
        ("stranger-holds-before-an-elected-card", |rack| {
            elect(rack, 3, 5)
        }),
        ("number-0-holds-before-an-elected-card", |rack| {
            elect(rack, 0, 5)
        }),
        ("holder-64-before-an-elected-card", |rack| {
            elect(rack, 64, 5)
        }),
        ("stranger-elected", |rack| elect(rack, 5, 3)),
        ("number-0-elected", |rack| elect(rack, 5, 0)),
        ("number-64-elected", |rack| elect(rack, 5, 64)),
        ("elected-is-not-the-last-winner", |rack| {
            elect(rack, 5, 2);
            rack.last_winner = 6;
        }),
        ("holder-is-the-last-winner-and-not-the-elected", |rack| {
            elect(rack, 5, 2);
            rack.last_winner = 5;
        }),
        ("elected-and-no-last-winner", |rack| {
            elect(rack, 5, 2);
            rack.last_winner = 0;
        }),
        ("kept-16-on-4-lines", |rack| rack.kept = 16),
        ("kept-256-on-4-lines", |rack| rack.kept = 256),
        ("kept-65535", |rack| rack.kept = 65535),
    ]
}

fn ill_formed_counts() -> Vec<Fault> {
    vec![
        ("count-under-rule-1", |rack| {
            wait(rack, 5);
            rack.counts[5] = 1;
        }),
        ("count-under-rule-3", |rack| {
            rack.table.rule = 3;
            wait(rack, 5);
            rack.counts[5] = 1;
        }),
        ("count-under-rule-4", |rack| {
            rack.table.rule = 4;
            wait(rack, 5);
            rack.counts[5] = 1;
        }),
        ("count-without-waiting", |rack| {
            rack.table.rule = 2;
            rack.counts[5] = 1;
        }),
        ("count-of-a-stranger", |rack| {
            rack.table.rule = 2;
            rack.counts[3] = 1;
        }),
        ("count-over-7-at-k-3", |rack| {
            rack.table.rule = 2;
            wait(rack, 5);
            rack.counts[5] = 8;
        }),
    ]
}

fn ill_formed_sets() -> Vec<Fault> {
    vec![
        ("batch-under-rule-1", |rack| {
            wait(rack, 5);
            rack.batch[5] = true;
        }),
        ("batch-under-rule-4", |rack| {
            rack.table.rule = 4;
            wait(rack, 5);
            rack.batch[5] = true;
        }),
        ("batch-of-a-stranger", |rack| {
            rack.table.rule = 3;
            rack.batch[3] = true;
        }),
        ("batch-without-waiting", |rack| {
            rack.table.rule = 3;
            rack.batch[5] = true;
        }),
        ("inhibition-under-rule-1", |rack| rack.inhibited[5] = true),
        ("inhibition-under-rule-3", |rack| {
            rack.table.rule = 3;
            rack.inhibited[5] = true;
        }),
        ("inhibition-of-a-stranger", |rack| {
            rack.table.rule = 4;
            rack.inhibited[3] = true;
        }),
    ]
}

/// The stored number of waiting cards differs from those that wait.
fn ill_formed_waiters() -> Vec<Fault> {
    vec![
        ("waiters-1-of-0", |rack| rack.waiters = 1),
        ("waiters-64-of-0", |rack| rack.waiters = 64),
        ("waiters-255-of-0", |rack| rack.waiters = 255),
        ("waiters-0-of-1", |rack| rack.waiting[5] = true),
        ("waiters-2-of-1", |rack| {
            rack.waiting[5] = true;
            rack.waiters = 2;
        }),
        ("waiters-1-of-2", |rack| {
            wait(rack, 2);
            wait(rack, 5);
            rack.waiters = 1;
        }),
        ("waiters-3-of-2", |rack| {
            wait(rack, 2);
            wait(rack, 5);
            rack.waiters = 3;
        }),
    ]
}

/// So many of 63 cards wait, and both say so.
fn counts_waiters(count: u8, program: &Shared) -> Kind {
    let by = program.clone();
    Kind::named(format!("counts-{count}-waiting"), move |met| {
        let cards: Vec<(u8, u8)> = (1..=63).map(|card| (card, card)).collect();
        let (mut rack, _) = Rack::load(&file_with(6, 0, &cards));
        (1..=count).for_each(|card| wait(&mut rack, card));
        let answer = hold_expecting(0, &rack, COUNT, &by, met)?;
        expect(&answer[seen_as_bytes::STATE..], &[0, count, 0, 0, 0, 0])
    })
}

/// How many lines each rule has at k = 3.
const LINES: [(u8, u32); 5] = [(0, 3), (1, 4), (2, 6), (3, 3), (4, 3)];

/// The worked table's cards under a rule, card 2 waiting, with this value kept on the lines.
fn keeping(rule: u8, kept: u16) -> Rack {
    let (mut rack, _) = Rack::load(&file_with(3, rule, &[(2, 1), (5, 2), (6, 3)]));
    wait(&mut rack, 2);
    rack.kept = kept;
    rack
}

/// All lines set is the greatest kept value, under each rule.
fn kept_values(program: &Shared) -> Vec<Kind> {
    let mut kinds = Vec::new();
    for (rule, lines) in LINES {
        for (over, name, stated) in [(0, "all", 0), (1, "over-all", 17)] {
            let by = program.clone();
            let name = format!("kept-{name}-lines-rule-{rule}");
            kinds.push(Kind::named(name, move |met| {
                let rack = keeping(rule, (1 << lines) - 1 + over);
                expect(rack.is_well_formed(), stated == 0)?;
                hold_expecting(stated, &rack, ARBITRATE, &by, met).map(|_| ())
            }));
        }
    }
    kinds
}

/// The arbitration starts from the kept value, and keeps what the lines settle to: 15, 12, 13.
fn starts_from_the_kept_value(program: &Shared, met: &mut Met) -> Result<(), String> {
    let mut rack = keeping(1, 15);
    wait(&mut rack, 5);
    rack.last_winner = 6;
    let answer = hold_expecting(0, &rack, ARBITRATE, program, met)?;
    let (next, report) = answer.split_at(seen_as_bytes::STATE);
    expect(report, &[0, 5, 13, 0, 2, 1])?;
    expect(seen_as_bytes::rack(next).kept, 13)
}

/// A request, a release and refused events leave the lines alone.
fn others_keep_the_kept_value(program: &Shared, met: &mut Met) -> Result<(), String> {
    let mut rack = keeping(1, 15);
    elect(&mut rack, 6, 5);
    let asked = [
        (b'Q', 6, 0),
        (b'R', 6, 0),
        (b'A', 0, 13),
        (b'Q', 2, 12),
        (b'Q', 5, 12),
    ];
    for (letter, number, stated) in asked {
        let ask = Ask { letter, number };
        let answer = hold_expecting(stated, &rack, ask, program, met)?;
        expect(seen_as_bytes::rack(&answer).kept, 15)?;
    }
    Ok(())
}

/// Rule 2 at k = 2, where these cards wait with a full count.
fn full_counts(cards: &[u8]) -> Rack {
    let (mut rack, _) = Rack::load(&file_with(2, 2, &[(1, 1), (2, 2), (3, 3)]));
    for &card in cards {
        wait(&mut rack, card);
        rack.counts[usize::from(card)] = 3;
    }
    rack
}

fn winner_with_full_count(program: &Shared, met: &mut Met) -> Result<(), String> {
    let mut rack = full_counts(&[1]);
    wait(&mut rack, 3);
    let answer = hold_expecting(0, &rack, ARBITRATE, program, met)?;
    let (next, report) = answer.split_at(seen_as_bytes::STATE);
    // The winner 1, the lines 13 in two bytes, and the stages.
    expect(&report[1..4], &[1, 13, 0])?;
    let next = seen_as_bytes::rack(next);
    expect((next.counts[1], next.counts[3]), (0, 1))
}

pub fn kinds(program: &Shared) -> Vec<Kind> {
    let faults = [
        ill_formed_states(),
        ill_formed_counts(),
        ill_formed_sets(),
        ill_formed_waiters(),
    ]
    .concat();
    let mut kinds: Vec<Kind> = faults
        .into_iter()
        .map(|(name, fault)| ill_formed(program, name, fault))
        .collect();
    kinds.extend(kept_values(program));
    kinds.extend([0, 1, 2, 62, 63].map(|count| counts_waiters(count, program)));
    let by = program.clone();
    kinds.push(Kind::named("starts-from-the-kept-value", move |met| {
        starts_from_the_kept_value(&by, met)
    }));
    let by = program.clone();
    kinds.push(Kind::named("others-keep-the-kept-value", move |met| {
        others_keep_the_kept_value(&by, met)
    }));
    let by = program.clone();
    kinds.push(Kind::named("16-loser-with-full-count", move |met| {
        hold_expecting(16, &full_counts(&[1, 3]), ARBITRATE, &by, met).map(|_| ())
    }));
    let by = program.clone();
    kinds.push(Kind::named("grants-a-full-count", move |met| {
        winner_with_full_count(&by, met)
    }));
    kinds
}
