//! The way into the Rust's run-length engine.

use std::rc::Rc;

use super::law::{Side, Value, ZERO};
use crate::checkpoint::Engine as _;
use crate::machine::{Action, Machine};
use crate::outcome::Outcome;
use crate::rle::{ChainSim, MacroEvent, Run, RunTape};
use crate::symbol::{Dir, State, Symbol};
use crate::tape::TapeView;

/// The Rust's run-length engine on a shared machine.
pub type Sim = ChainSim<Rc<Machine>>;

/// A fresh engine; `None` for a machine of several tapes.
pub fn fresh(machine: &Rc<Machine>, word: &[u8]) -> Option<Sim> {
    let word: Vec<Symbol> = word.iter().map(|&a| Symbol::new(a)).collect();
    ChainSim::new(Rc::clone(machine), &word).ok()
}

/// The position that a raised number stands for.
fn position(raised: u64) -> i64 {
    (raised ^ ZERO) as i64
}

/// The engine with the given value, which must fit.
pub fn set(machine: &Rc<Machine>, value: &Value, left: Side, right: Side) -> Sim {
    let [steps, macro_steps, lefts, rights, head, lowest, highest] = value.engine;
    let runs = |side: Side, count: u64| -> Vec<Run> {
        (0..count as usize).map(|i| Run { symbol: Symbol::new(side.0[i]), len: side.1[i] }).collect()
    };
    ChainSim {
        machine: Rc::clone(machine),
        state: State::new(value.state),
        tape: RunTape {
            left: runs(left, lefts),
            cur: Symbol::new(value.cur),
            right: runs(right, rights),
            head: position(head),
        },
        steps,
        macro_steps,
        extent: (position(lowest), position(highest)),
    }
}

/// The engine's value as the port has it.
pub fn value(sim: &Sim) -> Value {
    let raised = |at: i64| at as u64 ^ ZERO;
    let tape = sim.tape();
    Value {
        state: sim.state().get(),
        cur: tape.read().get(),
        engine: [
            sim.steps(),
            sim.macro_steps(),
            tape.left().len() as u64,
            tape.right().len() as u64,
            raised(tape.head()),
            raised(*sim.extent().start()),
            raised(*sim.extent().end()),
        ],
    }
}

/// One side's runs, bottom first.
pub fn runs(side: &[Run]) -> Vec<(u8, u64)> {
    side.iter().map(|run| (run.symbol.get(), run.len)).collect()
}

/// Whether the port is full before this action: its push needs a new run on a side whose live runs
/// fill its places.
fn is_full(sim: &Sim, action: &Action, places: [u64; 2]) -> bool {
    let (behind, places) = match action.dir[0] {
        Dir::L => (sim.tape().right(), places[1]),
        Dir::R => (sim.tape().left(), places[0]),
        Dir::N => return false,
    };
    let top = behind.last().map_or(0, |run| run.symbol.get());
    top != action.write[0].get() && behind.len() as u64 >= places
}

/// How a run ends.
#[derive(Clone, Copy, Debug, PartialEq)]
pub enum End {
    Rust(Outcome),
    /// The port is full where the Rust goes on.
    Full,
    /// It had not ended after so many macro steps.
    Late,
}

/// Runs macro step by macro step, at most `most` of them, with the port's stop rule and places.
pub fn drive(sim: &mut Sim, places: [u64; 2], rule: u64, fuel: u64, most: u64) -> End {
    let mut left = fuel;
    for _ in 0..=most {
        let mut next: Option<MacroEvent> = None;
        let outcome = sim.run_until(left, |event| {
            next = Some(*event);
            true
        });
        let Some(event) = next else {
            return End::Rust(outcome);
        };
        if u64::from(event.from.get()) == rule {
            return End::Rust(outcome);
        }
        if is_full(sim, &event.action, places) {
            return End::Full;
        }
        let mut made = false;
        sim.run_until(left, |_| std::mem::replace(&mut made, true));
        left -= event.repeats;
    }
    End::Late
}

/// Whether the next macro step is full in the port.
pub fn next_is_full(sim: &Sim, places: [u64; 2]) -> bool {
    let action = sim.machine.action1(sim.state, sim.tape.cur);
    action.is_some_and(|action| is_full(sim, &action, places))
}

/// Places enough that no machine tried here fills them.
const AMPLE: u64 = 10_000;

/// One macro step without the never test, to the step `end` at most.
fn leap(sim: &mut Sim, end: u64) {
    let mut made = false;
    sim.run_inner(end - sim.steps, &mut |_| std::mem::replace(&mut made, true), false);
}

/// Whether the machine halts here.
fn halts(sim: &Sim) -> bool {
    sim.machine.action1(sim.state, sim.tape.cur).is_none()
}

/// The Rust's advance of a timeline, from macro step to macro step where places are few; none where the
/// port is full.
pub fn advance(sim: &mut Sim, places: [u64; 2], fuel: u64) -> Option<Outcome> {
    if places.iter().all(|&n| n >= AMPLE) {
        return Some(sim.advance(fuel));
    }
    let end = sim.steps + fuel;
    while sim.steps < end && !halts(sim) {
        if next_is_full(sim, places) {
            return None;
        }
        leap(sim, end);
    }
    Some(sim.advance(0))
}

/// Whether an advance ends within so many macro steps.
pub fn ends_soon(sim: &Sim, places: [u64; 2], fuel: u64, most: u64) -> bool {
    let mut sim = sim.clone();
    let end = sim.steps + fuel;
    for _ in 0..most {
        if sim.steps == end || halts(&sim) || next_is_full(&sim, places) {
            return true;
        }
        leap(&mut sim, end);
    }
    false
}

/// Runs with the port's stop rule, as the Rust does it.
pub fn run(sim: &mut Sim, rule: u64, fuel: u64) -> Outcome {
    sim.run_until(fuel, |event| u64::from(event.from.get()) == rule)
}

/// The symbol at a position.
pub fn get(sim: &Sim, at: i64) -> u8 {
    sim.tape().get(at).get()
}

/// The ends of the non-blank stretch.
pub fn non_blank(sim: &Sim) -> Option<(i64, i64)> {
    sim.tape().non_blank().map(|range| (*range.start(), *range.end()))
}

/// The number of non-blank cells.
pub fn count(sim: &Sim) -> u64 {
    sim.tape().count_non_blank()
}

/// A stretch of cells.
pub fn window(sim: &Sim, from: i64, len: usize) -> Vec<u8> {
    sim.tape().window(from, len).iter().map(|s| s.get()).collect()
}
