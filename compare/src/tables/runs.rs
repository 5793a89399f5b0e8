//! The runs behind a row of the tables, and their figures beside the printed ones.

use crate::batches::{measure, Estimate, Measured};
use crate::bus::Bus;
use crate::comparison::Comparison;
use crate::published::{figure, Figure, Protocol, System, PROTOCOLS};
use compare::rng::Rng;

pub type Run = (&'static Protocol, Measured);

/// One load of one system, and how it is simulated.
pub struct Place<'a> {
    pub system: &'a System,
    pub load: &'a str,
    pub batch_size: usize,
    pub seed: u64,
}

impl Place<'_> {
    pub fn run(&self, protocol: &'static Protocol) -> Result<Run, String> {
        let agents = self.system.agents;
        let load = self.load.parse().expect("the tables hold numbers");
        let mean_think = protocol.load.mean_interrequest(agents, load);
        let seed = run_seed(self.seed, agents, self.load, protocol.rule);
        let bus = Bus::start(agents, mean_think, protocol.rule, seed)?;
        Ok((protocol, measure(bus, agents, self.batch_size)?))
    }

    /// Is there a figure of table 4.1 for the protocol?
    fn prints(&self, protocol: &Protocol) -> bool {
        figure(self.system.bandwidth, self.load, protocol.name).is_some()
    }

    pub fn runs(&self) -> Result<Vec<Run>, String> {
        let printed = PROTOCOLS.iter().filter(|protocol| self.prints(protocol));
        printed.map(|protocol| self.run(protocol)).collect()
    }
}

/// Every run has random numbers of its own, whichever rows are run beside it.
fn run_seed(seed: u64, agents: usize, load: &str, rule: u8) -> u64 {
    let run = format!("{agents} agents, load {load}, rule {rule}");
    run.bytes().fold(seed, |mixed, byte| {
        Rng::new(mixed ^ u64::from(byte)).next_u64()
    })
}

/// Compares one measure of every run, where the table prints a figure for it.
pub fn compare_runs<'a>(
    name: &str,
    runs: &'a [Run],
    batches: fn(&'a Measured) -> &'a Vec<f64>,
    printed: impl Fn(&Protocol) -> Option<Figure>,
) -> Vec<Comparison> {
    let comparison = |(protocol, measured): &'a Run| {
        Some(Comparison {
            name: format!("{name} {}", protocol.name),
            printed: printed(protocol)?,
            simulated: Estimate::of(batches(measured)),
        })
    };
    runs.iter().filter_map(comparison).collect()
}
