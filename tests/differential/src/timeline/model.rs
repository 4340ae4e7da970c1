//! The timeline of document 01 over the Rust's engines, for any settings and with lack of space,
//! written down on its own: what a call answers, which step the engine has then reached, what is recorded.

use super::kind::{Kind, Told};
use super::law::{COUNT, EVERY, FIRST, MOST, Times, due};
use crate::checkpoint::Engine as _;

#[derive(Clone)]
pub struct Model<K: Kind> {
    pub times: Times,
    pub here: K::Sim,
    /// What each slot of the store holds; none for bytes that are no engine.
    pub slots: Vec<Option<K::Sim>>,
}

impl<K: Kind> Model<K> {
    /// A new timeline, in a store of m + 1 slots.
    pub fn new(here: K::Sim, most: u64, every: u64) -> Self {
        let mut slots = vec![None; most as usize + 1];
        slots[0] = Some(here.clone());
        Self { times: [most, here.steps(), 1, every], here, slots }
    }

    /// The slot that a call to `target` restores, and the step that its engine must have; none
    /// where it goes on or stays.
    pub fn restores(&self, target: u64) -> Option<(usize, u64)> {
        let [_, first, count, every] = self.times;
        if target >= self.here.steps() {
            return None;
        }
        let slot = ((target - first) / every).min(count - 1);
        Some((slot as usize, first + slot * every))
    }

    /// Whether the call to `target` is refused for the slot that it restores.
    pub fn is_refused(&self, target: u64) -> bool {
        let holds = |slot: usize, step: u64| {
            let engine = self.slots.get(slot).and_then(Option::as_ref);
            engine.is_some_and(|engine| engine.steps() == step)
        };
        self.restores(target).is_some_and(|(slot, step)| !holds(slot, step))
    }

    /// Goes to `target`, which is not below the start and not refused.
    pub fn go_to(&mut self, target: u64, room: K::Room) -> Told {
        if target == self.here.steps() {
            return K::advance(&mut self.here, room, 0);
        }
        if let Some((slot, _)) = self.restores(target) {
            self.here = self.slots[slot].clone().expect("not refused");
        }
        loop {
            let now = self.here.steps();
            if u128::from(now) == due(&self.times) {
                self.record();
            }
            let fuel = (due(&self.times).min(u128::from(target)) as u64).max(now) - now;
            let result = K::advance(&mut self.here, room, fuel);
            let reached = self.here.steps();
            if reached == target || reached == now {
                return result;
            }
        }
    }

    /// Records; with more than m recorded, those of even index are kept and the interval doubles.
    fn record(&mut self) {
        let count = self.times[COUNT] as usize;
        self.slots[count] = Some(self.here.clone());
        self.times[COUNT] += 1;
        if self.times[COUNT] > self.times[MOST] {
            let kept = (count + 2) / 2;
            for i in 1..kept {
                self.slots[i] = self.slots[2 * i].clone();
            }
            self.times[COUNT] = kept as u64;
            self.times[EVERY] *= 2;
        }
    }

    /// The steps of the recorded slots, as far as those are numbers of 64 bits: a value set from outside may have later
    /// ones.
    pub fn recorded(&self) -> impl Iterator<Item = u64> + use<K> {
        let [_, first, count, every] = self.times;
        (0..count).map_while(move |i| i.checked_mul(every)?.checked_add(first))
    }

    /// The starting step.
    pub fn first(&self) -> u64 {
        self.times[FIRST]
    }
}
