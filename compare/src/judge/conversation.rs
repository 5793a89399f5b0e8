//! Conversations with `racktrace`: a line that has arrived is answered before anything else goes.

use super::met::Met;
use super::traces::{meet_all, same};
use super::waiting_counts;
use crate::listing::{self, TRACE_LINE};
use crate::racktrace;

struct Conversation<'a> {
    reference: listing::Session,
    product: racktrace::Session,
    met: &'a mut Met,
}

impl Conversation<'_> {
    fn start<'a>(file: &[u8], met: &'a mut Met) -> Result<Conversation<'a>, String> {
        let (reference, at_once) = listing::Session::start(Some(file));
        let mut conversation = Conversation {
            reference,
            product: racktrace::Session::start(Some(file))?,
            met,
        };
        conversation.expect_printed(&at_once)?;
        Ok(conversation)
    }

    /// The product prints this by now, and ends by now if it is the last.
    fn expect_printed(&mut self, wanted: &[u8]) -> Result<(), String> {
        if wanted.is_empty() {
            return Ok(());
        }
        same(&self.product.answer()?, wanted)?;
        meet_all(wanted, self.met)?;
        if self.reference.has_ended() {
            self.product.ends_by_itself()?;
        }
        Ok(())
    }

    fn line_has_arrived(&mut self, line: &[u8]) -> Result<(), String> {
        let wanted = self.reference.answer(line);
        self.expect_printed(&wanted)
    }

    fn finish(mut self, incomplete: &[u8]) -> Result<(), String> {
        let wanted = match incomplete {
            [] => Vec::new(),
            bytes => self.reference.answer(bytes),
        };
        same(&self.product.finish()?, &wanted)
    }
}

/// Sends the trace in pieces; each line that is whole is answered before the next piece goes.
pub fn converse(
    file: &[u8],
    trace: &[u8],
    mut piece: impl FnMut() -> usize,
    met: &mut Met,
) -> Result<(), String> {
    let mut conversation = Conversation::start(file, met)?;
    let (mut sent, mut answered) = (0, 0);
    while sent < trace.len() {
        let end = trace.len().min(sent + piece());
        conversation.product.send(&trace[sent..end])?;
        sent = end;
        while answered + TRACE_LINE <= sent {
            conversation.line_has_arrived(&trace[answered..answered + TRACE_LINE])?;
            answered += TRACE_LINE;
        }
    }
    conversation.finish(&trace[answered..])?;
    let (_, greatest_count) = waiting_counts::listing_and_count(Some(file), trace);
    waiting_counts::hold(file, greatest_count, met)
}
