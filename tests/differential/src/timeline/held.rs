//! The port's timeline between calls: its engine with the buffers, its value and its store.

use super::kind::Kind;
use super::law::{Call, Times};
use crate::case::Subject;
use crate::lent::{GUARD, Held};
use crate::port::Out;
use crate::tally::{Difference, same};

#[derive(Clone)]
pub struct Port<K: Kind> {
    pub held: K::Held,
    pub times: Times,
    /// The store between guards.
    pub store: Vec<u8>,
    /// The value and the store before a call; of the store only what lies past m + 1 slots where the call
    /// is to be accepted.
    pub before: (Times, usize, Vec<u8>),
}

impl<K: Kind> Port<K> {
    /// Takes what is there as what was before the call; of the store all from `from` on.
    pub fn look(&mut self, from: usize) {
        K::look(&mut self.held);
        self.before = (self.times, GUARD + from, self.store[GUARD + from..].to_vec());
    }

    pub fn store_kept(&self) -> bool {
        self.store[self.before.1..] == self.before.2
    }

    pub fn call(&mut self, on: &Subject, lent: usize, call: Call, out: &mut Out) -> u8 {
        K::call(on, &mut self.held, &mut self.store[GUARD..GUARD + lent], &mut self.times, call.numbers(), out)
    }
}

impl<K: Kind> Held for Port<K> {
    fn unchanged(&self) -> Result<(), Difference> {
        self.held.unchanged()?;
        same!(self.times, self.before.0, "the timeline's value changed");
        same!(self.store_kept(), true, "the store is as it was");
        Ok(())
    }
}

/// A slot's size; any, where the table is refused.
pub fn slot_of<K: Kind>(subject: &Subject, held: &K::Held) -> usize {
    if subject.refusal.is_none() { K::slot(&subject.sizes, held) } else { 150 }
}
