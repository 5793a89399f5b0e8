//! Figures held against a column that isn't theirs. A judge that lets them pass is too mild.

use crate::comparison::Comparison;
use crate::published::{figure, Protocol, INHIBIT, PROTOCOLS};
use crate::runs::{compare_runs, Place, Run};

/// Here the deviations of RR and FCFS lie far apart, so neither must fit the other's column.
const DEVIATION_CONTROL_LOAD: &str = "1.50";
/// Here AAP shares the bus by far the least evenly, so no other rule must fit its column.
const BANDWIDTH_CONTROL_LOAD: &str = "5.00";

pub fn controls(place: &Place, runs: &[Run]) -> Result<Vec<Comparison>, String> {
    let mut controls = deviation_controls(place, runs);
    controls.extend(bandwidth_controls(place, runs)?);
    Ok(controls)
}

fn deviation_controls(place: &Place, runs: &[Run]) -> Vec<Comparison> {
    if place.load != DEVIATION_CONTROL_LOAD {
        return Vec::new();
    }
    let printed = |protocol: &Protocol| figure(place.system.waits, place.load, protocol.name);
    let against = |other: &'static Protocol| {
        let name = format!("σ of {} must not fit", other.name);
        compare_runs(
            &name,
            runs,
            |run| &run.deviation,
            move |protocol| {
                let comparable = protocol.name != other.name && printed(protocol).is_some();
                printed(other).filter(|_| comparable)
            },
        )
    };
    PROTOCOLS.iter().flat_map(against).collect()
}

/// The other protocols against AAP's column, where it is printed.
fn bandwidth_controls(place: &Place, runs: &[Run]) -> Result<Vec<Comparison>, String> {
    let aap = figure(place.system.bandwidth, place.load, "AAP");
    if aap.is_none() || place.load != BANDWIDTH_CONTROL_LOAD {
        return Ok(Vec::new());
    }
    let against = |runs| {
        compare_runs(
            "Λn/Λ1 of AAP must not fit",
            runs,
            |run| &run.bandwidth,
            |protocol| aap.filter(|_| protocol.name != "AAP"),
        )
    };
    let mut controls = against(runs);
    controls.extend(against(&[place.run(&INHIBIT)?]));
    Ok(controls)
}
