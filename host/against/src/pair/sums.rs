//! The takings of both sides, and a call with a sum that no call produced.

use super::{Due, Pair};
use crate::counts::Counts;
use crate::takings;
use whitherhaul::raw::state;

impl Pair {
    /// The takings after a call; and those of the same call with another sum, if there is one.
    pub(super) fn sums(
        &mut self,
        frame: Option<&[u8]>,
        due: &Due,
        other: Option<u64>,
        counts: &mut Counts,
    ) -> Result<(), String> {
        self.takings()?;
        counts.takings += 1;
        match other {
            None => Ok(()),
            Some(sum) => {
                let held = self.other_sum(frame, due, sum, counts);
                held.map_err(|fault| format!("with the sum {sum}: {fault}"))
            }
        }
    }

    /// The takings are the sum of the Rust's totals.
    pub(super) fn takings(&self) -> Result<(), String> {
        let totals = &self.rust.replica.state_machine().totals;
        takings::hold(&self.memory, totals.iter().sum())
    }

    /// The call that was just compared, given again to what was before it, with another sum in the state: it answers the same and
    /// leaves the same memory, but that its sum is this one, moved by what the call committed.
    pub(super) fn other_sum(
        &mut self,
        frame: Option<&[u8]>,
        due: &Due,
        sum: u64,
        counts: &mut Counts,
    ) -> Result<(), String> {
        let mut other = self.before.clone();
        takings::put(&mut other, sum);
        let lengths = (self.out.needed.len(), self.reps.needed.len());
        self.answers(&mut other, frame, (due.number, due.offset), lengths)?;
        let moved = takings::moved(sum, &self.before, &self.memory, &mut counts.cuts);
        takings::hold(&other, moved)?;
        other.state[state::TAKINGS..].copy_from_slice(&self.memory.state[state::TAKINGS..]);
        if other != self.memory {
            return Err("other memory is left".into());
        }
        counts.sums += 1;
        Ok(())
    }
}
