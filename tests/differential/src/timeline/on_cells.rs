//! Timelines over the plain engine.

use std::fmt;
use std::rc::Rc;

use super::ffi;
use super::kind::{Kind, Told, full};
use super::law::Times;
use crate::case::{self, Subject};
use crate::checkpoint::Engine as _;
use crate::generate::Rng;
use crate::held::Plain;
use crate::law::{Refusal, Sizes};
use crate::machine::Machine;
use crate::oracle;
use crate::port::{self, Out};
use crate::tally::{Difference, OUT};

/// The plain engine.
#[derive(Clone, Copy)]
pub struct OnCells;

impl Kind for OnCells {
    const AMPLE: usize = 1 << 13;
    const SOME: usize = 300;
    type Begin = case::Begin;
    type Held = Plain;
    type Sim = oracle::Sim;
    type Room = [usize; 3];

    fn begin(subject: &Subject, begin: &case::Begin, rng: &mut Rng) -> Option<Plain> {
        let mut held = Plain::begin(begin, rng);
        if let case::Begin::Fresh { word, .. } = begin {
            let (cells, state, engine) = held.lend();
            let made = port::new(subject.sizes, &subject.table, word, cells, state, engine, &mut OUT.clone());
            held.look();
            return (made == 0).then_some(held);
        }
        Some(held)
    }

    fn look(held: &mut Plain) {
        held.look();
    }

    fn refusal(sizes: &Sizes, held: &Plain) -> Option<Refusal> {
        held.refusal(sizes)
    }

    fn refusal_of_tapes(_: &Sizes) -> bool {
        false
    }

    fn steps(held: &Plain) -> u64 {
        held.engine[0]
    }

    fn room(held: &Plain) -> [usize; 3] {
        held.room()
    }

    fn slot(sizes: &Sizes, held: &Plain) -> usize {
        128 + held.room()[..sizes.tapes as usize].iter().sum::<usize>()
    }

    fn set(machine: &Rc<Machine>, held: &Plain) -> oracle::Sim {
        held.set(machine, (0, 0))
    }

    fn spoil(held: &mut Plain, place: usize, to: u64) {
        match place {
            0..16 => held.engine[place] = to,
            16 => held.state = to as u16,
            _ => {
                let (cells, ..) = held.lend();
                if let Some(cell) = cells[place % 3].get_mut(place / 3 - 5) {
                    *cell = to as u8;
                }
            }
        }
    }

    fn advance(sim: &mut oracle::Sim, room: [usize; 3], fuel: u64) -> Told {
        let end = sim.steps() + fuel;
        loop {
            let start = sim.clone();
            let piece = (end - sim.steps()).min(4096);
            let outcome = sim.advance(piece);
            if sim.tapes.iter().zip(room).any(|(tape, room)| tape.cells.len() > room) {
                // Somewhere on the way a tape outgrew its buffer: step by step to that place.
                *sim = start;
                while !Self::is_full(sim, room) {
                    sim.step();
                }
                return full(sim.steps());
            }
            if sim.steps() == end || sim.steps() - start.steps() < piece {
                return oracle::answer(outcome);
            }
        }
    }

    fn ends_soon(sim: &oracle::Sim, room: [usize; 3], fuel: u64) -> bool {
        let (mut sim, end) = (sim.clone(), sim.steps().saturating_add(100_000));
        fuel <= 12_000_000 || {
            Self::advance(&mut sim, room, 100_000);
            sim.steps() < end
        }
    }

    fn is_full(sim: &oracle::Sim, room: [usize; 3]) -> bool {
        oracle::is_full(sim, room)
    }

    fn compare(held: &Plain, sim: &oracle::Sim, _: bool) -> Result<(), Difference> {
        held.compare(sim)
    }

    fn work(sim: &oracle::Sim) -> u64 {
        sim.steps()
    }

    fn has_cells(_: &oracle::Sim) -> bool {
        true
    }

    fn make(on: &Subject, held: &Plain, store: &mut [u8], times: &mut Times, set: (u64, u64), out: &mut Out) -> u8 {
        ffi::sim_new(on.sizes, &on.table, held.cells(), store, (held.state, &held.engine), times, set, out)
    }

    fn call(on: &Subject, held: &mut Plain, store: &mut [u8], times: &mut Times, call: (u8, u64), out: &mut Out) -> u8 {
        let (cells, state, engine) = held.lend();
        ffi::sim_call(on.sizes, &on.table, cells, store, (state, engine), times, call, out)
    }

    fn write(f: &mut fmt::Formatter<'_>, begin: &case::Begin) -> fmt::Result {
        case::write_begin(f, begin)
    }

    fn smaller(subject: &Subject, begin: &case::Begin) -> Vec<case::Begin> {
        case::smaller_begins(begin, subject.sizes.tapes)
    }

    fn fresh(word: &[u8], room: usize) -> case::Begin {
        case::Begin::Fresh { word: word.to_vec(), room: [room; 3] }
    }
}
