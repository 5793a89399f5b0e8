//! A row of the tables: every protocol simulated at one load, each figure beside the printed one.

use crate::batches::Estimate;
use crate::comparison::Comparison;
use crate::controls::controls;
use crate::load::Load;
use crate::published::{figure, Protocol, System};
use crate::runs::{compare_runs, Place, Run};

pub struct Row {
    pub load: String,
    /// Figures of table 4.1.
    pub bandwidth: Vec<Comparison>,
    /// Figures of table 4.2.
    pub waits: Vec<Comparison>,
    /// Figures held against a column that isn't theirs.
    pub controls: Vec<Comparison>,
}

impl Row {
    pub fn simulate(
        system: &System,
        load: &str,
        batch_size: usize,
        seed: u64,
    ) -> Result<Row, String> {
        let place = Place {
            system,
            load,
            batch_size,
            seed,
        };
        let runs = place.runs()?;
        Ok(Row {
            load: load.to_string(),
            bandwidth: bandwidth(system, load, &runs),
            waits: waits(system, load, &runs),
            controls: controls(&place, &runs)?,
        })
    }
}

/// Λ and W are printed once for all protocols, for the document's own loads.
fn shares_loads(protocol: &Protocol) -> bool {
    protocol.load == Load::Share
}

fn bandwidth(system: &System, load: &str, runs: &[Run]) -> Vec<Comparison> {
    let table = system.bandwidth;
    let mut figures = compare_runs(
        "Λ",
        runs,
        |run| &run.throughput,
        |protocol| figure(table, load, "throughput").filter(|_| shares_loads(protocol)),
    );
    figures.extend(compare_runs(
        "Λn/Λ1",
        runs,
        |run| &run.bandwidth,
        |protocol| figure(table, load, protocol.name),
    ));
    figures
}

fn waits(system: &System, load: &str, runs: &[Run]) -> Vec<Comparison> {
    let table = system.waits;
    let mut figures = compare_runs(
        "W",
        runs,
        |run| &run.wait,
        |protocol| figure(table, load, "W").filter(|_| shares_loads(protocol)),
    );
    figures.extend(compare_runs(
        "σ",
        runs,
        |run| &run.deviation,
        |protocol| figure(table, load, protocol.name),
    ));
    figures.extend(deviation_ratio(table, load, runs));
    figures
}

/// The last column of table 4.2, batch by batch.
fn deviation_ratio(table: &str, load: &str, runs: &[Run]) -> Option<Comparison> {
    let deviations = |name| {
        let (_, measured) = runs.iter().find(|(protocol, _)| protocol.name == name)?;
        Some(&measured.deviation)
    };
    let pairs = deviations("RR")?.iter().zip(deviations("FCFS")?);
    let ratios: Vec<f64> = pairs.map(|(above, below)| above / below).collect();
    Some(Comparison {
        name: "σ RR/FCFS".to_string(),
        printed: figure(table, load, "RR/FCFS")?,
        simulated: Estimate::of(&ratios),
    })
}
