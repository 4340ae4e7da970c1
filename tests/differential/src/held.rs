//! A plain engine of the port between calls: its value and its cells buffers.

use std::rc::Rc;

use crate::case::Begin;
use crate::generate::Rng;
use crate::law::{Engine, Refusal, Sizes, fields, tape_fields};
use crate::lent::{Held, Lent};
use crate::machine::Machine;
use crate::oracle::{self, Sim};
use crate::port::CellsMut;
use crate::tally::{Difference, same};

#[derive(Clone)]
pub struct Plain {
    pub state: u16,
    pub engine: Engine,
    buffers: [Lent<u8>; 3],
    /// State and engine before the call.
    before: (u16, Engine),
}

impl Plain {
    /// The buffers, full of dirt for a fresh engine, and the value that is lent first.
    pub fn begin(begin: &Begin, rng: &mut Rng) -> Self {
        let mut engine: Engine = std::array::from_fn(|_| rng.next());
        let mut state = rng.next() as u16;
        let buffers = match begin {
            Begin::Fresh { room, .. } => room.map(|n| Lent::new(0xa5, (0..n).map(|_| rng.next() as u8))),
            Begin::Outside { state: s, engine: e, cells } => {
                (state, engine) = (*s, *e);
                [&cells[0], &cells[1], &cells[2]].map(|c| Lent::new(0xa5, c.iter().copied()))
            }
        };
        Self { state, engine, buffers, before: (state, engine) }
    }

    pub fn room(&self) -> [usize; 3] {
        [0, 1, 2].map(|i| self.buffers[i].room())
    }

    pub fn cells(&self) -> [&[u8]; 3] {
        let [a, b, c] = &self.buffers;
        [a.part(), b.part(), c.part()]
    }

    pub fn lend(&mut self) -> (CellsMut<'_>, &mut u16, &mut Engine) {
        let [a, b, c] = &mut self.buffers;
        ([a.lend(), b.lend(), c.lend()], &mut self.state, &mut self.engine)
    }

    /// Takes the present value as the one before the next call.
    pub fn look(&mut self) {
        self.buffers.iter_mut().for_each(Lent::look);
        self.before = (self.state, self.engine);
    }

    /// What the lent value is refused for (11 or 12).
    pub fn refusal(&self, sizes: &Sizes) -> Option<Refusal> {
        sizes.lent(self.state, &self.engine, self.cells())
    }

    /// The oracle's engine with the same value, which must fit.
    pub fn set(&self, machine: &Rc<Machine>, witness: (i64, i64)) -> Sim {
        oracle::set(machine, self.state, &self.engine, self.cells(), witness)
    }

    /// What a fresh engine's fields of lacking tapes are is left open; afterwards they stay.
    pub fn accept_lacking(&mut self, tapes: usize) {
        let lacking = fields(tapes);
        self.before.1[lacking..].copy_from_slice(&self.engine[lacking..]);
    }

    /// The port's engine and buffers are the oracle's, and what is no tape's is as it was.
    pub fn compare(&self, sim: &Sim) -> Result<(), Difference> {
        same!(self.state, sim.state().get(), "state");
        let mut want = self.before.1;
        oracle::value(sim, &mut want);
        same!(self.engine[0], want[0], "steps");
        let tapes = sim.tapes().len();
        for i in 0..3 {
            let (port, want) = (tape_fields(&self.engine, i), tape_fields(&want, i));
            same!(port, want, "tape {i} [len, origin, head, lowest, highest]");
            let buffer = &self.buffers[i];
            let len = if i < tapes { port[0] as usize } else { 0 };
            if len > buffer.room() {
                return Err(format!("tape {i} is longer than its buffer"));
            }
            let cells = &buffer.part()[..len];
            if i < tapes && !oracle::same_cells(&sim.tapes()[i], cells) {
                let want = oracle::cells(&sim.tapes()[i]);
                let at = (0..len).find(|&j| want[j] != cells[j]);
                return Err(format!("tape {i}, cell {at:?}: the port has {cells:?}, expected {want:?}"));
            }
            if !buffer.kept_past(len) {
                return Err(format!("tape {i}: bytes past the length {len} (or around the buffer) changed"));
            }
        }
        Ok(())
    }
}

impl Held for Plain {
    fn unchanged(&self) -> Result<(), Difference> {
        same!(self.state, self.before.0, "state changed");
        same!(self.engine, self.before.1, "engine changed");
        for (i, buffer) in self.buffers.iter().enumerate() {
            if !buffer.kept() {
                return Err(format!("cells buffer {i} changed"));
            }
        }
        Ok(())
    }
}
