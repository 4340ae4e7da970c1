//! What may be wrong with a call: numbers, slots, the store's size, the table.

use std::fmt;
use std::rc::Rc;

use super::kind::Kind;
use super::law::{COUNT, MOST, Times};
use super::model::Model;
use crate::case::Subject;
use crate::checkpoint::Engine as _;
use crate::generate::Rng;

/// One thing that is wrong with a call; it is put right again if the call is refused.
#[derive(Clone)]
pub enum Odd {
    /// A number of the timeline's value is another.
    Times(usize, u64),
    /// The store lacks so many bytes of m + 1 slots.
    Short(usize),
    /// A slot is changed: by its index, or the one that the call restores.
    Slot(Option<usize>, How),
    /// A number of the engine's value, or what a buffer holds, is another.
    Value(usize, u64),
    /// The table is another.
    Table(Rc<Subject>),
}

/// How a slot is changed.
#[derive(Clone, Copy, Debug, PartialEq, Eq)]
pub enum How {
    Random,
    /// Zeros, where that is not an engine at step 0.
    Zeros,
    /// The bytes of another slot.
    Copy(usize),
    /// All bytes past the first 128 are 255, where some of them are symbols below k.
    Cells,
    /// One byte is changed: it may still hold an engine.
    Byte(usize, u8),
}

impl fmt::Debug for Odd {
    fn fmt(&self, f: &mut fmt::Formatter<'_>) -> fmt::Result {
        match self {
            Odd::Times(i, to) => write!(f, "timeline's {} = {to}", ["most", "first", "count", "every"][*i]),
            Odd::Short(by) => write!(f, "store short by {by}"),
            Odd::Slot(None, how) => write!(f, "the slot to restore: {how:?}"),
            Odd::Slot(Some(i), how) => write!(f, "slot {i}: {how:?}"),
            Odd::Value(i, to) => write!(f, "engine's place {i} = {to}"),
            Odd::Table(s) => write!(f, "table {:?} of {} bytes, refusal {:?}", s.sizes, s.table.len(), s.refusal),
        }
    }
}

/// What lies ready for a call, and what is odd about it.
pub struct Ready<'s, 'a, K: Kind> {
    /// The table with which the call is made.
    pub subject: &'s Subject,
    pub held: &'a mut K::Held,
    pub times: &'a mut Times,
    pub store: &'a mut [u8],
    /// How many bytes of the store are lent.
    pub lent: &'a mut usize,
    pub model: Option<&'a mut Model<K>>,
    /// A slot's size.
    pub slot: usize,
    /// The slot that the call restores, if it does.
    pub restores: Option<usize>,
    /// Whether what the store holds is no longer known.
    pub uncertain: &'a mut bool,
}

impl<'s, K: Kind> Ready<'s, '_, K> {
    /// Makes one thing wrong.
    pub fn spoil(&mut self, odd: &'s Odd, rng: &mut Rng) {
        match odd {
            Odd::Times(i, to) => self.times[*i] = *to,
            Odd::Short(by) => {
                let whole = (self.times[MOST].min(512) as usize + 1) * self.slot;
                *self.lent = whole.saturating_sub(*by).min(*self.lent);
            }
            Odd::Value(place, to) => K::spoil(self.held, *place, *to),
            Odd::Table(subject) => self.subject = subject,
            Odd::Slot(index, how) => {
                let count = self.times[COUNT].clamp(1, 512) as usize;
                if let Some(i) = index.or(self.restores) {
                    self.spoil_slot(i % count, *how, count, rng);
                }
            }
        }
    }

    fn spoil_slot(&mut self, i: usize, how: How, count: usize, rng: &mut Rng) {
        let (size, symbols) = (self.slot, self.subject.sizes.symbols);
        let Some(model) = self.model.as_deref_mut() else {
            return;
        };
        if (i + 1) * size > self.store.len() || i >= model.slots.len() {
            return;
        }
        let bytes = i * size..(i + 1) * size;
        match how {
            How::Random => {
                self.store[bytes].iter_mut().for_each(|b| *b = rng.next() as u8);
                model.slots[i] = None;
            }
            How::Zeros if model.slots[i].as_ref().is_some_and(|e| e.steps() != 0) => {
                self.store[bytes].fill(0);
                model.slots[i] = None;
            }
            How::Copy(from) if (from % count + 1) * size <= self.store.len() && from % count < model.slots.len() => {
                let from = from % count;
                self.store.copy_within(from * size..(from + 1) * size, i * size);
                model.slots[i] = model.slots[from].clone();
            }
            How::Cells if symbols < 256 && model.slots[i].as_ref().is_some_and(K::has_cells) => {
                self.store[i * size + 128..(i + 1) * size].fill(255);
                model.slots[i] = None;
            }
            How::Byte(place, by) if by != 0 => {
                self.store[i * size + place % size] ^= by;
                *self.uncertain = true;
            }
            _ => {}
        }
    }
}
