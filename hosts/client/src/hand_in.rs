//! How a log is handed in, and what becomes of one that is refused.

use crate::desk::{Answer, Desk, LeaseKind, LeaseRefusal, Unanswered};
use crate::draft::Draft;
use crate::entry::Entry;
use crate::failure::{Failure, HandInFault, Lost};
use crate::fault::{Fault, Reason};
use crate::room::Waiting;
use crate::session::{Session, FIRST_PAUSE};
use std::ops::RangeInclusive;
use std::time::Instant;

/// How often a log is handed in, where it looks as if it could be done.
const TIMES: u32 = 3;
/// How many leases an entry may lack.
const LEASES: usize = 8;

impl<D: Desk> Session<D> {
    /// Hands the log in. Behind `Ok` all calls before it are kept, and others see them.
    ///
    /// Where the tree or the leases have changed, the log is made anew over the tree of now, and handed in once more. What
    /// can't be done then is told, and isn't in the log any more.
    pub fn sync(&mut self) -> Result<(), HandInFault> {
        if self.draft.log().is_empty() {
            self.forget_unwritten();
            return Ok(());
        }
        if self.is_uncertain && self.was_done()? {
            // It may be long ago.
            self.draft.changed().into_iter().for_each(|number| self.cache.forget(number));
            self.land();
            self.forget_unwritten();
            return Ok(());
        }
        self.leave_out_unwritten()?;
        if let Some(fault) = self.still_lacks_room()? {
            return Err(fault);
        }
        let (mut times, mut before) = (0, None);
        loop {
            let said = match self.hand_in()? {
                Answer::Yes => {
                    // The answer may have been long in coming: what was shown under leases that have ended goes before.
                    match self.pass_time() {
                        Ok(_) => self.cache.land(&self.draft, &self.leases),
                        Err(_) => self.cache.clear(),
                    }
                    self.land();
                    return Ok(());
                }
                Answer::NoRoom { need, free } => {
                    self.note_no_room(need);
                    return Err(HandInFault::NoRoom { need, free });
                }
                Answer::NoSpace => return Err(HandInFault::NoSpace),
                Answer::Wrong(wrong) => return Err(HandInFault::Wrong(wrong)),
                said => said,
            };
            times += 1;
            // An entry that is refused again, though it looks as if it could be done, is left out.
            let lost = self.make_anew(said, before == Some(said))?;
            if !lost.is_empty() || times == TIMES {
                return Err(HandInFault::Refused { said, lost, stays: self.draft.log().len() });
            }
            before = Some(said);
        }
    }

    /// Hands the log in as by `sync`. Where a lease that it needs isn't to be had now, or blocks have to go to slower tiers before,
    /// this waits for it, at most for `patience`, and gives up meanwhile what others want.
    pub fn sync_patiently(&mut self) -> Result<(), HandInFault> {
        let until = Instant::now() + self.options.patience;
        let (mut pause, mut room) = (FIRST_PAUSE, Waiting::new(self.options.patience));
        loop {
            let ended = self.sync();
            let waits = match &ended {
                _ if self.is_waiting || self.desk.is_ending() => false,
                Err(HandInFault::NoRoom { .. }) => self.waits_for_room(&mut room),
                Err(fault) => fault.may_pass() && Instant::now() < until,
                Ok(()) => false,
            };
            if !waits {
                return ended;
            }
            match self.wait_a_while(&mut pause) {
                Err(Failure::HandIn(fault)) if !fault.may_pass() && !matches!(fault, HandInFault::NoRoom { .. }) => {
                    return Err(fault)
                }
                Err(Failure::Unanswered(fault)) => return Err(fault.into()),
                // What isn't given up now ends by its end.
                _ => {}
            }
        }
    }

    /// Hands the log in once. A log that changes nothing needn't be.
    fn hand_in(&mut self) -> Result<Answer, Unanswered> {
        if self.means_others()? {
            return Ok(Answer::Entry(0, Reason::NoSuchNode));
        }
        let plan = self.draft.plan();
        if plan.is_empty() {
            return Ok(Answer::Yes);
        }
        let said = self.desk.submit(self.draft.log().as_bytes(), &plan.to_bytes());
        self.is_uncertain = matches!(said, Err(Unanswered::Unknown | Unanswered::Gone(_)));
        said
    }

    /// Whether a node that the log changes has gone, and another one has its number and its lease. Where a lease was held without a
    /// gap none has.
    fn means_others(&mut self) -> Result<bool, Unanswered> {
        let regained = self.draft.meant_by(|number, since| self.leases.since(number).map_or(false, |now| now != since));
        for (number, born) in regained {
            self.desk.header(number).map_err(Unanswered::Gone)?;
            if self.desk.stamp(number).map(|stamp| stamp.born) != Some(born) {
                return Ok(true);
            }
        }
        Ok(false)
    }

    /// Whether the log was done when it was last handed in. Where nobody can say, handing it in again does no harm: it changes
    /// bytes alone, or is refused.
    fn was_done(&mut self) -> Result<bool, HandInFault> {
        let is_done = self.draft.is_done(&mut self.desk).map_err(Unanswered::Gone)?;
        Ok(is_done == Some(true))
    }

    /// The log is done: the next one begins.
    fn land(&mut self) {
        // A lease ends with its node, whose number may be another node's soon.
        self.draft.gone().into_iter().for_each(|number| self.leases.forget(number));
        self.draft.clear();
        self.calls.clear();
        self.began = None;
        self.is_uncertain = false;
        self.note_room();
    }

    /// Makes the log anew of its entries, over the tree as it is now. Returns the calls that can't be done. No lease is waited
    /// for: what is given up meanwhile would hand in a log that isn't whole.
    fn make_anew(&mut self, said: Answer, is_again: bool) -> Result<Vec<Lost>, HandInFault> {
        self.cache.clear();
        if let Answer::Entry(_, Reason::NoLease(_)) = said {
            // Others may have ended, too. What isn't granted now is found out at its entry.
            let needed: Vec<_> = self.draft.needed().into_iter().map(|number| (number, LeaseKind::Write)).collect();
            self.leases.numbers().into_iter().for_each(|number| self.note_loss(number));
            self.leases.forget_all();
            self.ask_leases(&needed)?;
        }
        let left_out = match said {
            // A lease may have ended again.
            Answer::Entry(_, Reason::NoLease(_)) => None,
            Answer::Entry(index, reason) if is_again => Some((index, reason)),
            _ => None,
        };
        self.enter_anew(&|index, _| left_out.filter(|(other, _)| *other == index).map(|(_, reason)| reason))
    }

    /// Takes all entries anew, but for those that are left out, each for a reason. Where that can't be done the log stays as it was.
    pub(crate) fn enter_anew(&mut self, left_out: &dyn Fn(usize, &Entry) -> Option<Reason>) -> Result<Vec<Lost>, HandInFault> {
        let (old, calls) = (self.draft.clone(), std::mem::take(&mut self.calls));
        self.draft.begin_anew();
        let was_waiting = std::mem::replace(&mut self.is_waiting, true);
        let meant = std::mem::replace(&mut self.meant, old.meant());
        let entered = self.enter_all_again(&old, &calls, left_out);
        (self.is_waiting, self.meant) = (was_waiting, meant);
        match &entered {
            Ok(_) if self.draft.log().is_empty() => self.began = None,
            Ok(_) => {}
            Err(_) => (self.draft, self.calls) = (old, calls),
        }
        entered
    }

    /// Takes the entries of a log into the one that is empty, but for those that are left out.
    fn enter_all_again(
        &mut self,
        old: &Draft,
        calls: &[RangeInclusive<u64>],
        left_out: &dyn Fn(usize, &Entry) -> Option<Reason>,
    ) -> Result<Vec<Lost>, HandInFault> {
        let mut lost = Vec::new();
        for (index, (entry, calls)) in old.log().entries().zip(calls).enumerate() {
            let entered = match left_out(index, &entry) {
                Some(reason) => Err(Fault::Refused(reason)),
                None => self.enter_again(&entry)?,
            };
            match entered {
                Ok(()) => self.calls.push(calls.clone()),
                Err(fault) => lost.push(lost_call(old, calls.clone(), entry, fault)),
            }
        }
        Ok(lost)
    }

    /// Takes an entry into the log again, or tells why it can't be. Where a lease isn't to be had now, nothing is lost.
    fn enter_again(&mut self, entry: &Entry) -> Result<Result<(), Fault>, HandInFault> {
        for _ in 0..LEASES {
            let number = match self.try_enter(entry) {
                Err(Fault::Refused(Reason::NoLease(number))) => number,
                Err(Fault::Unshown(fault)) => return Err(Unanswered::Gone(fault).into()),
                entered => return Ok(entered),
            };
            match self.take_lease(number, LeaseKind::Write) {
                Ok(()) => {}
                Err(Failure::Lease(number, refusal)) if refusal.may_pass() => {
                    return Err(HandInFault::Lease(number, refusal));
                }
                Err(Failure::Unanswered(fault)) => return Err(fault.into()),
                Err(_) => return Ok(Err(Fault::Refused(Reason::NoLease(number)))),
            }
        }
        // They end as fast as they come: nothing is lost by that.
        Err(HandInFault::Lease(entry.number(), LeaseRefusal::Past))
    }
}

fn lost_call(old: &Draft, calls: RangeInclusive<u64>, entry: Entry, fault: Fault) -> Lost {
    let path = old.paths().path(entry.number());
    let path = path.map_or_else(|| format!("node {}", entry.number()), |path| String::from_utf8_lossy(&path).into());
    Lost { calls, entry, path, fault }
}
