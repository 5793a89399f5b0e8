//! How far a simulated figure may lie from the printed one.
//!
//! Allowed is 0.005 + 1.5 (p + s):
//! - 0.005, because figures are printed with two decimals;
//! - p, the printed half-width of the 90% interval. Where none is printed it is taken to be s:
//!   the document's simulations were made by the same method;
//! - s, the half-width of our own 90% interval;
//! - half as much again as their sum. The sum alone is missed by chance in 2 of 100 figures whose
//!   p and s are alike, which of the 152 figures of a full run would be three.

use crate::batches::Estimate;
use crate::published::Figure;

const ROUNDING: f64 = 0.005;
const WIDENING: f64 = 1.5;

pub fn allowed(printed: Figure, simulated: &Estimate) -> f64 {
    let printed_half_width = printed.half_width.unwrap_or(simulated.half_width);
    ROUNDING + WIDENING * (printed_half_width + simulated.half_width)
}

pub fn agrees(printed: Figure, simulated: &Estimate) -> bool {
    (simulated.mean - printed.value).abs() <= allowed(printed, simulated)
}
