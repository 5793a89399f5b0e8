//! The method of batch means, as in document 001: 10 batches and 90% confidence intervals.

use crate::bus::{Bus, Served};

pub const BATCHES: usize = 10;
/// The 95% point of Student's distribution with BATCHES - 1 = 9 degrees of freedom, which leaves
/// 5% on either side of a 90% interval.
const STUDENT: f64 = 1.833;

pub struct Estimate {
    pub mean: f64,
    pub half_width: f64,
}

impl Estimate {
    pub fn of(values: &[f64]) -> Estimate {
        let (mean, deviation) = mean_and_deviation(values);
        let half_width = STUDENT * deviation / (values.len() as f64).sqrt();
        Estimate { mean, half_width }
    }
}

/// What each batch gave, batch by batch.
#[derive(Default)]
pub struct Measured {
    pub throughput: Vec<f64>,
    pub wait: Vec<f64>,
    pub deviation: Vec<f64>,
    /// The throughput of the highest card over that of the lowest.
    pub bandwidth: Vec<f64>,
}

/// Runs the bus for one batch that is thrown away and for those that are measured.
pub fn measure(mut bus: Bus, agents: usize, batch_size: usize) -> Result<Measured, String> {
    let mut measured = Measured::default();
    let mut before = last_end(&batch(&mut bus, batch_size)?);
    for _ in 0..BATCHES {
        let served = batch(&mut bus, batch_size)?;
        let waits: Vec<f64> = served.iter().map(|one| one.wait).collect();
        let (mean, deviation) = mean_and_deviation(&waits);
        let grants = |card| served.iter().filter(|one| one.card == card).count() as f64;
        let after = last_end(&served);
        measured
            .throughput
            .push(batch_size as f64 / (after - before));
        measured.wait.push(mean);
        measured.deviation.push(deviation);
        measured.bandwidth.push(grants(agents) / grants(1));
        before = after;
    }
    Ok(measured)
}

fn batch(bus: &mut Bus, size: usize) -> Result<Vec<Served>, String> {
    (0..size).map(|_| bus.serve()).collect()
}

fn last_end(served: &[Served]) -> f64 {
    served.last().map_or(0.0, |one| one.ended)
}

/// The mean, and the standard deviation of a sample.
fn mean_and_deviation(values: &[f64]) -> (f64, f64) {
    let count = values.len() as f64;
    let mean = values.iter().sum::<f64>() / count;
    let squares: f64 = values.iter().map(|value| (value - mean).powi(2)).sum();
    (mean, (squares / (count - 1.0)).sqrt())
}
