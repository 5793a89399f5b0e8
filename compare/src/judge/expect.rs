//! What was found against what is stated, and how a failure shows it.

use crate::seen_as_bytes::ANSWER;
use std::fmt::Debug;

pub fn expect<T: PartialEq + Debug>(found: T, stated: T) -> Result<(), String> {
    if found == stated {
        Ok(())
    } else {
        Err(format!("{found:?}, expected {stated:?}"))
    }
}

/// The bytes of an input as a failure prints them. A state with what is asked of it is shown whole,
/// anything longer is cut.
pub fn shown(bytes: &[u8]) -> String {
    const MOST: usize = ANSWER;
    let cut = if bytes.len() > MOST { " .." } else { "" };
    let hex: String = bytes
        .iter()
        .take(MOST)
        .map(|byte| format!(" {byte:02x}"))
        .collect();
    format!("{} bytes{hex}{cut}", bytes.len())
}
