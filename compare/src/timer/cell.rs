//! One rule at one width: its lines, and the most stages that were found.

use crate::built;
use crate::run::Run;
use crate::walk;
use compare::judge::asked::hold_expecting;
use compare::judge::met::Met;
use compare::judge::named_tables::file_with;
use compare::judge::traces::same;
use compare::listing::{listing, LISTING_LINE};
use compare::rack::Rack;
use compare::rackstate::Shared;
use compare::racktrace;
use compare::rules::rule;
use compare::seen_as_bytes::{Ask, STATE};
use compare::table::greatest_number;

/// Up to this width every state is tried.
const WIDEST_WALK: u8 = 2;

pub struct Cell {
    file: Vec<u8>,
    m: u32,
    /// The slowest run from a fresh state.
    run: Run,
    /// The slowest arbitration if the lines may carry anything before it.
    state: Rack,
}

impl Cell {
    pub fn of(number: u8, k: u8) -> Cell {
        let cards: Vec<(u8, u8)> = (1..=greatest_number(k)).map(|card| (card, card)).collect();
        let file = file_with(k, number, &cards);
        let (run, state) = if k <= WIDEST_WALK {
            let reached = walk::reached(&file, k);
            (walk::slowest_run(&reached), walk::slowest_state(&reached))
        } else {
            let run = built::slow_run(&file);
            let state = run.slowest;
            (run, state)
        };
        Cell {
            m: (rule(number).lines)(k),
            file,
            run,
            state,
        }
    }

    /// The most stages in a run.
    pub fn shown(&self) -> String {
        format!("{} of {}", self.run.stages, self.m)
    }

    /// The most stages from lines that carry anything.
    pub fn shown_from_any(&self) -> String {
        format!("{} of {}", walk::stages(&self.state), self.m)
    }

    /// The product takes as many stages in the same run, and never more than m.
    pub fn hold(&self) -> Result<(), String> {
        let printed = racktrace::run(Some(&self.file), &self.run.trace)?;
        same(&printed, &listing(Some(&self.file), &self.run.trace))?;
        let most = printed.chunks(LISTING_LINE).map(stages).max().unwrap_or(0);
        self.judge(most, self.run.stages)
    }

    /// The product takes as many stages in the same state, and never more than m.
    pub fn hold_from_any(&self, program: &Shared) -> Result<(), String> {
        let ask = Ask {
            letter: b'A',
            number: 0,
        };
        let answer = hold_expecting(0, &self.state, ask, program, &mut Met::nothing(Vec::new()))?;
        self.judge(answer[STATE + 4].into(), walk::stages(&self.state))
    }

    fn judge(&self, most: u32, found: u8) -> Result<(), String> {
        let m = self.m;
        if most == u32::from(found) && most <= m {
            return Ok(());
        }
        Err(format!(
            "the product takes {most} stages, found {found}, at most {m}"
        ))
    }
}

/// The stages in a listing line.
fn stages(line: &[u8]) -> u32 {
    u32::from(line[16] - b'0') * 10 + u32::from(line[17] - b'0')
}
