//! Kinds of cases. Each case of a kind has a seed of its own, so one command repeats it.

use super::met::Met;
use crate::report::Report;
use crate::rng::Rng;
use std::panic::{catch_unwind, AssertUnwindSafe};
use std::time::Instant;

type Check = Box<dyn Fn(&mut Rng, &mut Met) -> Result<(), String>>;

/// One test: a check that is made on as many generated cases as its weight in the group says.
pub struct Kind {
    pub name: String,
    weight: u64,
    check: Check,
}

impl Kind {
    pub fn new(
        name: impl Into<String>,
        weight: u64,
        check: impl Fn(&mut Rng, &mut Met) -> Result<(), String> + 'static,
    ) -> Kind {
        Kind {
            name: name.into(),
            weight,
            check: Box::new(check),
        }
    }

    /// A check that needs no generated input.
    pub fn named(
        name: impl Into<String>,
        check: impl Fn(&mut Met) -> Result<(), String> + 'static,
    ) -> Kind {
        Kind::new(name, 1, move |_, met| check(met))
    }

    fn seed(&self, master: u64, index: u64) -> u64 {
        let name = self.name.bytes().fold(master, |hash, byte| {
            Rng::new(hash ^ u64::from(byte)).next_u64()
        });
        Rng::new(name.wrapping_add(index)).next_u64()
    }

    pub fn run_case(&self, seed: u64, met: &mut Met) -> Result<(), String> {
        let case = || (self.check)(&mut Rng::new(seed), met);
        catch_unwind(AssertUnwindSafe(case)).unwrap_or(Err("a panic, see above".to_string()))
    }

    pub fn command(&self, seed: u64) -> String {
        format!("compare/run --case {} {seed}", self.name)
    }
}

/// Numbers as they stand in a kind's name.
pub fn dashed(numbers: &[u32]) -> String {
    let words: Vec<String> = numbers.iter().map(u32::to_string).collect();
    words.join("-")
}

pub struct Group {
    title: &'static str,
    cases: u64,
    pub kinds: Vec<Kind>,
}

impl Group {
    pub fn of(title: &'static str, cases: u64, kinds: Vec<Kind>) -> Group {
        Group {
            title,
            cases,
            kinds,
        }
    }

    /// A group whose kinds are run once each.
    pub fn once(title: &'static str, kinds: Vec<Kind>) -> Group {
        Group::of(title, kinds.len() as u64, kinds)
    }

    fn cases_of(&self, kind: &Kind) -> u64 {
        let weights: u64 = self.kinds.iter().map(|kind| kind.weight).sum();
        (self.cases * kind.weight).div_ceil(weights)
    }

    pub fn run(&self, master: u64, met: &mut Met, report: &mut Report) {
        let total: u64 = self.kinds.iter().map(|kind| self.cases_of(kind)).sum();
        println!("{}: {} tests, {total} cases", self.title, self.kinds.len());
        let begun = Instant::now();
        for kind in &self.kinds {
            run_kind(kind, self.cases_of(kind), master, met, report);
        }
        println!("{}: {:.1} s", self.title, begun.elapsed().as_secs_f64());
    }
}

/// One test over all cases of a kind, up to the first that fails.
fn run_kind(kind: &Kind, cases: u64, master: u64, met: &mut Met, report: &mut Report) {
    for index in 0..cases {
        let seed = kind.seed(master, index);
        let outcome = kind.run_case(seed, met);
        if outcome.is_err() {
            return report.test(&kind.name, outcome, &kind.command(seed));
        }
    }
    report.test(&kind.name, Ok(()), "");
}
