//! A run-length engine of the port between calls: its value and its run places.

use std::rc::Rc;

use super::case::{Begin, Side as Places};
use super::law::{self, MACROS, Side, Value};
use super::oracle::{self, Sim};
use crate::generate::Rng;
use crate::law::{Refusal, Sizes};
use crate::lent::{Held, Lent};
use crate::machine::Machine;
use crate::port::PlacesMut;
use crate::tally::{Difference, same};

/// One side's places.
#[derive(Clone)]
pub struct Lane {
    symbols: Lent<u8>,
    lengths: Lent<u64>,
}

impl Lane {
    fn new(symbols: impl Iterator<Item = u8>, lengths: impl Iterator<Item = u64>) -> Self {
        Self { symbols: Lent::new(0xa5, symbols), lengths: Lent::new(0xa5a5_a5a5_a5a5_a5a5, lengths) }
    }

    fn dirty(rng: &mut Rng, (symbols, lengths): (usize, usize)) -> Self {
        let symbols: Vec<u8> = (0..symbols).map(|_| rng.next() as u8).collect();
        Self::new(symbols.into_iter(), (0..lengths).map(|_| rng.next()))
    }

    pub fn side(&self) -> Side<'_> {
        Side(self.symbols.part(), self.lengths.part())
    }

    pub fn kept(&self) -> bool {
        self.symbols.kept() && self.lengths.kept()
    }

    fn guards_kept(&self) -> bool {
        self.symbols.kept_past(self.symbols.room()) && self.lengths.kept_past(self.lengths.room())
    }

    fn look(&mut self) {
        self.symbols.look();
        self.lengths.look();
    }

    /// The live runs, bottom first.
    pub fn runs(&self, count: u64) -> Result<Vec<(u8, u64)>, Difference> {
        let Side(symbols, lengths) = self.side();
        if count > self.side().places() {
            return Err(format!("{count} live runs in {} places", self.side().places()));
        }
        Ok((0..count as usize).map(|i| (symbols[i], lengths[i])).collect())
    }
}

#[derive(Clone)]
pub struct Chained {
    pub left: Lane,
    pub right: Lane,
    pub value: Value,
    pub before: Value,
}

impl Chained {
    /// The places, full of dirt for a fresh engine, and the value that is lent first.
    pub fn begin(begin: &Begin, rng: &mut Rng) -> Self {
        let (value, left, right) = match begin {
            Begin::Fresh { left, right, .. } => {
                let engine = std::array::from_fn(|_| rng.next());
                let value = Value { state: rng.next() as u16, cur: rng.next() as u8, engine };
                (value, Lane::dirty(rng, *left), Lane::dirty(rng, *right))
            }
            Begin::Outside { value, left, right } => {
                let lane = |side: &Places| Lane::new(side.0.iter().copied(), side.1.iter().copied());
                (*value, lane(left), lane(right))
            }
        };
        Self { left, right, value, before: value }
    }

    /// The places of the left and of the right side.
    pub fn places(&self) -> [u64; 2] {
        [self.left.side().places(), self.right.side().places()]
    }

    pub fn lend(&mut self) -> (PlacesMut<'_>, &mut Value) {
        let Lane { symbols: ls, lengths: ll } = &mut self.left;
        let Lane { symbols: rs, lengths: rl } = &mut self.right;
        ((ls.lend(), ll.lend(), rs.lend(), rl.lend()), &mut self.value)
    }

    /// Takes the present value as the one before the next call.
    pub fn look(&mut self) {
        self.left.look();
        self.right.look();
        self.before = self.value;
    }

    /// What the lent value is refused for (8, 11 or 12).
    pub fn refusal(&self, sizes: &Sizes) -> Option<Refusal> {
        law::lent(sizes, &self.value, self.left.side(), self.right.side())
    }

    /// The oracle's engine with the same value, which must fit.
    pub fn set(&self, machine: &Rc<Machine>) -> Sim {
        oracle::set(machine, &self.value, self.left.side(), self.right.side())
    }

    /// The port's engine and live runs are the oracle's; macro steps too, where they are to be looked at.
    pub fn compare(&self, sim: &Sim, macros: bool) -> Result<(), Difference> {
        let mut want = oracle::value(sim);
        if !macros {
            want.engine[MACROS] = self.value.engine[MACROS];
        }
        same!(self.value, want, "engine [steps, macro steps, left, right, head, lowest, highest]");
        let sides = [("left", &self.left, sim.tape().left()), ("right", &self.right, sim.tape().right())];
        for (name, lane, want) in sides {
            same!(lane.runs(want.len() as u64)?, oracle::runs(want), "{name} runs, bottom first");
            if !lane.guards_kept() {
                return Err(format!("memory around the {name} run places changed"));
            }
        }
        Ok(())
    }
}

impl Held for Chained {
    fn unchanged(&self) -> Result<(), Difference> {
        same!(self.value, self.before, "engine changed");
        for (lane, name) in [(&self.left, "left"), (&self.right, "right")] {
            if !lane.kept() {
                return Err(format!("the {name} run places changed"));
            }
        }
        Ok(())
    }
}
