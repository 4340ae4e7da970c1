//! What is lent to the port: slices between guards, and the judgement that all pairings share.

use crate::law::Refusal;
use crate::port::Out;
use crate::tally::{Difference, Tally, judge};

/// Elements on either side of a lent slice that nobody may touch.
pub const GUARD: usize = 16;

/// A lent slice between guards, with a copy of what was in it before the call.
#[derive(Clone)]
pub struct Lent<T> {
    all: Vec<T>,
    before: Vec<T>,
}

impl<T: Copy + PartialEq> Lent<T> {
    pub fn new(guard: T, content: impl Iterator<Item = T>) -> Self {
        let mut all = vec![guard; GUARD];
        all.reserve(content.size_hint().0 + GUARD);
        all.extend(content);
        all.extend([guard; GUARD]);
        Self { before: all.clone(), all }
    }

    pub fn room(&self) -> usize {
        self.all.len() - 2 * GUARD
    }

    pub fn lend(&mut self) -> &mut [T] {
        let end = self.all.len() - GUARD;
        &mut self.all[GUARD..end]
    }

    pub fn part(&self) -> &[T] {
        &self.all[GUARD..self.all.len() - GUARD]
    }

    /// Whether nothing has changed.
    pub fn kept(&self) -> bool {
        self.all == self.before
    }

    /// Whether only the first `len` elements may have changed.
    pub fn kept_past(&self, len: usize) -> bool {
        let from = GUARD + len;
        self.all[..GUARD] == self.before[..GUARD] && self.all[from..] == self.before[from..]
    }

    /// Takes what is there now as what was before the next call.
    pub fn look(&mut self) {
        self.before.copy_from_slice(&self.all);
    }
}

/// An engine's value and buffers (and a timeline's, and its store) in a list of calls.
pub trait Held {
    /// Everything lent is as it was before the call.
    fn unchanged(&self) -> Result<(), Difference>;

    /// Compares the result of a call with the expected refusal. Says whether it was accepted; if
    /// not, nothing has changed. `documented` is how many numbers of `out` an accepted call may write.
    fn settle(
        &self,
        (result, out): (u8, &Out),
        expected: Option<Refusal>,
        documented: usize,
        tally: &mut Tally,
    ) -> Result<bool, Difference> {
        let accepted = judge((result, out), expected, documented, tally)?;
        if !accepted {
            self.unchanged().map_err(|e| format!("after refusal {result}: {e}"))?;
        }
        Ok(accepted)
    }
}
