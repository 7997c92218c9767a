//! What becomes of a log where a lock is lost under which it was written.

use crate::desk::{Answer, Desk};
use crate::entry::Entry;
use crate::failure::HandInFault;
use crate::fault::Reason;
use crate::session::Session;

/// The file whose bytes an entry changes.
fn written(entry: &Entry) -> Option<u32> {
    match entry {
        Entry::Write { number, .. } | Entry::Truncate { number, .. } => Some(*number),
        _ => None,
    }
}

impl<D: Desk> Session<D> {
    /// Takes out of the log what it writes to files of which a lock for writing was lost. Others may have had it since, and have
    /// written what would be written over. The calls that are lost by that are told.
    pub(crate) fn leave_out_unwritten(&mut self) -> Result<(), HandInFault> {
        let unwritten = self.desk.held_locks().map_or_else(Vec::new, |held| held.unwritten().to_vec());
        let first = match unwritten.first() {
            Some(first) => *first,
            None => return Ok(()),
        };
        let is_left_out = |entry: &Entry| written(entry).filter(|number| unwritten.contains(number)).map(Reason::NoLease);
        self.cache.clear();
        let lost = self.enter_anew(&|_, entry| is_left_out(entry))?;
        self.forget_unwritten();
        self.is_uncertain = false;
        match lost.is_empty() {
            true => Ok(()),
            false => {
                let said = Answer::Entry(0, Reason::NoLease(first));
                Err(HandInFault::Refused { said, lost, stays: self.draft.log().len() })
            }
        }
    }

    /// The log has nothing that others may have written since.
    pub(crate) fn forget_unwritten(&mut self) {
        if let Some(held) = self.desk.held_locks() {
            held.forget_unwritten();
        }
    }
}
