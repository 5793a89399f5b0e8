//! A simulated figure beside the printed one.

use crate::batches::Estimate;
use crate::published::Figure;
use crate::tolerance::{agrees, allowed};

pub struct Comparison {
    pub name: String,
    pub printed: Figure,
    pub simulated: Estimate,
}

impl Comparison {
    /// The difference and what is allowed, if it is more than that.
    pub fn outcome(&self) -> Result<(), String> {
        if agrees(self.printed, &self.simulated) {
            return Ok(());
        }
        Err(self.describe())
    }

    pub fn must_differ(&self) -> Result<(), String> {
        if !agrees(self.printed, &self.simulated) {
            return Ok(());
        }
        Err(format!("fits it: {}", self.describe()))
    }

    fn describe(&self) -> String {
        let (printed, simulated) = (self.printed_text(), self.simulated_text());
        let allowed = allowed(self.printed, &self.simulated);
        format!("printed {printed}, simulated {simulated}, allowed difference {allowed:.3}")
    }

    fn printed_text(&self) -> String {
        let value = self.printed.value;
        let interval = self.printed.half_width.map(|half| format!("±{half:.2}"));
        format!("{value:.2}{}", interval.unwrap_or_default())
    }

    fn simulated_text(&self) -> String {
        let Estimate { mean, half_width } = self.simulated;
        format!("{mean:.3}±{half_width:.3}")
    }

    /// The width that the printed text needs in its column.
    fn printed_width(&self) -> usize {
        if self.printed.half_width.is_some() {
            9
        } else {
            5
        }
    }

    /// Both figures; a `!` marks those that don't agree.
    pub fn cell(&self) -> String {
        let width = self.printed_width();
        let (printed, simulated) = (self.printed_text(), self.simulated_text());
        let mark = if self.outcome().is_ok() { ' ' } else { '!' };
        format!(" |{printed:>width$} {simulated:>12}{mark}")
    }

    /// The column's heading, as wide as a cell.
    pub fn head(&self) -> String {
        let width = self.printed_width() + 14;
        format!(" |{:^width$}", self.name)
    }
}
