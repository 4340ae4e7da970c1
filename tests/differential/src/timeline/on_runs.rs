//! Timelines over the run-length engine.

use std::fmt;
use std::rc::Rc;

use super::ffi;
use super::kind::{Kind, Told, full};
use super::law::Times;
use crate::case::Subject;
use crate::chain::case::{Begin, smaller_begins, write_begin};
use crate::chain::held::Chained;
use crate::chain::law::{STEPS, Side, Value};
use crate::chain::oracle::{self as rle, Sim};
use crate::generate::Rng;
use crate::law::{Refusal, Sizes};
use crate::machine::Machine;
use crate::oracle;
use crate::port::{self, Out};
use crate::tally::{Difference, OUT};

/// The run-length engine.
#[derive(Clone, Copy)]
pub struct OnRuns;

impl Kind for OnRuns {
    const AMPLE: usize = 300;
    const SOME: usize = 12;
    type Begin = Begin;
    type Held = Chained;
    type Sim = Sim;
    type Room = [u64; 2];

    fn begin(subject: &Subject, begin: &Begin, rng: &mut Rng) -> Option<Chained> {
        let mut held = Chained::begin(begin, rng);
        if let Begin::Fresh { word, .. } = begin {
            let (places, value) = held.lend();
            let made = port::chain_new(subject.sizes, &subject.table, word, places, value, &mut OUT.clone());
            held.look();
            return (made == 0).then_some(held);
        }
        Some(held)
    }

    fn look(held: &mut Chained) {
        held.look();
    }

    fn refusal(sizes: &Sizes, held: &Chained) -> Option<Refusal> {
        held.refusal(sizes)
    }

    fn refusal_of_tapes(sizes: &Sizes) -> bool {
        sizes.tapes > 1
    }

    fn steps(held: &Chained) -> u64 {
        held.value.engine[STEPS]
    }

    fn room(held: &Chained) -> [u64; 2] {
        held.places()
    }

    fn slot(_: &Sizes, held: &Chained) -> usize {
        128 + 9 * held.places().iter().sum::<u64>() as usize
    }

    fn set(machine: &Rc<Machine>, held: &Chained) -> Sim {
        held.set(machine)
    }

    fn spoil(held: &mut Chained, place: usize, to: u64) {
        let ((ls, ll, rs, rl), Value { state, cur, engine }) = held.lend();
        match place {
            0..7 => engine[place] = to,
            7 => *state = to as u16,
            8 => *cur = to as u8,
            _ => {
                let (symbols, lengths) = if place.is_multiple_of(2) { (ls, ll) } else { (rs, rl) };
                let at = place / 4 - 2;
                match place / 2 % 2 {
                    0 => symbols.get_mut(at).into_iter().for_each(|s| *s = to as u8),
                    _ => lengths.get_mut(at).into_iter().for_each(|n| *n = to),
                }
            }
        }
    }

    fn advance(sim: &mut Sim, places: [u64; 2], fuel: u64) -> Told {
        rle::advance(sim, places, fuel).map_or_else(|| full(sim.steps()), oracle::answer)
    }

    fn ends_soon(sim: &Sim, places: [u64; 2], fuel: u64) -> bool {
        fuel <= 1_000_000 || rle::ends_soon(sim, places, fuel, 200_000)
    }

    fn is_full(sim: &Sim, places: [u64; 2]) -> bool {
        rle::next_is_full(sim, places)
    }

    fn compare(held: &Chained, sim: &Sim, macros: bool) -> Result<(), Difference> {
        held.compare(sim, macros)
    }

    fn work(sim: &Sim) -> u64 {
        sim.macro_steps()
    }

    fn has_cells(sim: &Sim) -> bool {
        !sim.tape().left().is_empty() || !sim.tape().right().is_empty()
    }

    fn make(on: &Subject, held: &Chained, store: &mut [u8], times: &mut Times, set: (u64, u64), out: &mut Out) -> u8 {
        let (Side(ls, ll), Side(rs, rl)) = (held.left.side(), held.right.side());
        ffi::chain_new(on.sizes, &on.table, (ls, ll, rs, rl), store, &held.value, times, set, out)
    }

    fn call(
        on: &Subject,
        held: &mut Chained,
        store: &mut [u8],
        times: &mut Times,
        call: (u8, u64),
        out: &mut Out,
    ) -> u8 {
        let (places, value) = held.lend();
        ffi::chain_call(on.sizes, &on.table, places, store, value, times, call, out)
    }

    fn write(f: &mut fmt::Formatter<'_>, begin: &Begin) -> fmt::Result {
        write_begin(f, begin)
    }

    fn smaller(_: &Subject, begin: &Begin) -> Vec<Begin> {
        smaller_begins(begin)
    }

    fn fresh(word: &[u8], room: usize) -> Begin {
        Begin::Fresh { word: word.to_vec(), left: (room, room), right: (room, room) }
    }
}
