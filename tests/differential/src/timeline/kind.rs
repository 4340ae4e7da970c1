//! What a list of calls on a timeline needs of a kind of engine: see `on_cells.rs` and `on_runs.rs`.

use std::fmt;
use std::rc::Rc;

use super::law::Times;
use crate::case::Subject;
use crate::checkpoint::Engine;
use crate::generate::Rng;
use crate::law::{Refusal, Sizes};
use crate::lent::Held;
use crate::machine::Machine;
use crate::port::Out;
use crate::tally::Difference;

pub use super::on_cells::OnCells;
pub use super::on_runs::OnRuns;

/// An answer in numbers, as `oracle::answer` gives it.
pub type Told = [Option<u64>; 5];

/// That an engine is full at a step.
pub fn full(steps: u64) -> Told {
    [Some(4), Some(steps), None, None, None]
}

pub trait Kind: Clone + 'static {
    /// Cells, or run places, that are enough for most machines.
    const AMPLE: usize;
    /// So many that a store stays small.
    const SOME: usize;
    /// Where the engine comes from.
    type Begin: Clone;
    /// The port's engine with its buffers.
    type Held: Held + Clone;
    /// The Rust's engine.
    type Sim: Engine;
    /// How much is lent.
    type Room: Copy + fmt::Debug;

    /// The engine in its buffers; none where the port refuses to make a fresh one.
    fn begin(subject: &Subject, begin: &Self::Begin, rng: &mut Rng) -> Option<Self::Held>;
    /// Takes the present value as the one before the next call.
    fn look(held: &mut Self::Held);
    /// What the value is refused for, after the table check.
    fn refusal(sizes: &Sizes, held: &Self::Held) -> Option<Refusal>;
    /// Whether a machine of these sizes is not taken for its tapes (8).
    fn refusal_of_tapes(sizes: &Sizes) -> bool;
    fn steps(held: &Self::Held) -> u64;
    fn room(held: &Self::Held) -> Self::Room;
    /// A slot's size. Only for a table that passed its check.
    fn slot(sizes: &Sizes, held: &Self::Held) -> usize;
    /// The Rust's engine with the same value, which must fit.
    fn set(machine: &Rc<Machine>, held: &Self::Held) -> Self::Sim;
    /// Changes a number of the value, or what a buffer holds.
    fn spoil(held: &mut Self::Held, place: usize, to: u64);

    /// The Rust's advance, but full where the port is.
    fn advance(sim: &mut Self::Sim, room: Self::Room, fuel: u64) -> Told;
    /// Whether an advance with so much fuel, which may be very much, takes no great time.
    fn ends_soon(sim: &Self::Sim, room: Self::Room, fuel: u64) -> bool;
    /// Whether the next step is full.
    fn is_full(sim: &Self::Sim, room: Self::Room) -> bool;
    /// The port's engine is the Rust's; macro steps too, where they are to be looked at.
    fn compare(held: &Self::Held, sim: &Self::Sim, macros: bool) -> Result<(), Difference>;
    /// Steps made, or macro steps.
    fn work(sim: &Self::Sim) -> u64;
    /// Whether a saved engine has anything in its buffers that a symbol of 255 spoils.
    fn has_cells(sim: &Self::Sim) -> bool;

    fn make(on: &Subject, held: &Self::Held, store: &mut [u8], times: &mut Times, set: (u64, u64), out: &mut Out)
    -> u8;
    fn call(
        on: &Subject,
        held: &mut Self::Held,
        store: &mut [u8],
        times: &mut Times,
        call: (u8, u64),
        out: &mut Out,
    ) -> u8;

    fn write(f: &mut fmt::Formatter<'_>, begin: &Self::Begin) -> fmt::Result;
    fn smaller(subject: &Subject, begin: &Self::Begin) -> Vec<Self::Begin>;
    /// A fresh engine with ample room (cells of each tape, or places of each side).
    fn fresh(word: &[u8], room: usize) -> Self::Begin;
}
