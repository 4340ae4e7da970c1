//! The way into the oracle: fills a `Machine` from the port's table, sets a `Simulator` from an
//! engine value, and reads everything back. It is in the oracle's crate for the sake of the
//! `pub(crate)` fields.

use std::rc::Rc;

use crate::law::{Engine, MAX_STEPS, Sizes, fields, tape_fields};
use crate::machine::{Action, Decoder, Kind, Machine, Packed, StateInfo, door};
use crate::outcome::{NonHaltProof, Outcome};
use crate::sim::Simulator;
use crate::symbol::{Dir, State, Symbol};
use crate::tape::{Tape, TapeView};

/// The Rust's plain engine on a shared machine.
pub type Sim = Simulator<Rc<Machine>>;

/// The move with the number `d`: 0 L, 1 R, 2 N.
pub fn dir(d: u8) -> Dir {
    match d {
        0 => Dir::L,
        1 => Dir::R,
        _ => Dir::N,
    }
}

/// A `Machine` with the entries of `table`, which must have passed the table check.
pub fn machine(sizes: &Sizes, table: &[u8]) -> Machine {
    let stride = sizes.stride();
    let action = |e: &[u8]| {
        (e[0] == 1).then(|| Action {
            next: State::new(u16::from_le_bytes([e[1], e[2]])),
            write: [e[3], e[4], e[5]].map(Symbol::new),
            dir: [e[6] % 3, e[6] / 3 % 3, e[6] / 9].map(dir),
        })
    };
    let entries: Box<[Option<Action>]> = table.chunks(8).map(action).collect();
    let packed = match sizes.tapes {
        1 => entries.iter().map(|&a| Packed::new(a, stride)).collect(),
        _ => Box::default(),
    };
    Machine {
        name: String::new(),
        kind: Kind::Beaver,
        tapes: sizes.tapes as usize,
        alphabet: crate::alphabet::door::alphabet(sizes.symbols as usize),
        states: (0..sizes.states).map(|_| StateInfo { name: String::new(), is_final: false }).collect(),
        start: State::new(sizes.start as u16),
        stride,
        table: entries,
        origin: Box::default(), // the index in the builder's order, which no engine reads
        packed,
        decoder: Decoder::Word,
        input: String::new(),
    }
}

/// A machine with an alphabet of these glyphs and flags, whatever they are.
pub fn with_alphabet(glyphs: Vec<char>, input: Vec<bool>) -> Machine {
    let mut machine = machine(&Sizes { tapes: 1, symbols: 1, states: 1, start: 0 }, &[0; 8]);
    machine.alphabet = crate::alphabet::door::any(glyphs, input);
    machine
}

/// The symbols of a word, or the place of its first glyph that is not allowed.
pub fn encode(machine: &Machine, word: &str) -> Result<Vec<u8>, usize> {
    let symbols = machine.encode_input(word).map_err(|e| e.position)?;
    Ok(symbols.into_iter().map(Symbol::get).collect())
}

/// A glyph's symbol.
pub fn symbol_for(machine: &Machine, glyph: char) -> Option<u8> {
    machine.alphabet().symbol(glyph).map(Symbol::get)
}

/// Whether a symbol is flagged as input.
pub fn is_input(machine: &Machine, symbol: u8) -> bool {
    machine.alphabet().is_input(Symbol::new(symbol))
}

/// The number of a move.
fn number(dir: Dir) -> u64 {
    match dir {
        Dir::L => 0,
        Dir::R => 1,
        Dir::N => 2,
    }
}

/// An action in numbers: next state, writes, moves.
pub fn numbers(action: &Action) -> [u64; 7] {
    let [w0, w1, w2] = action.write.map(|a| u64::from(a.get()));
    let [d0, d1, d2] = action.dir.map(number);
    [u64::from(action.next.get()), w0, w1, w2, d0, d1, d2]
}

/// The entry for a state and the symbols read, by the Rust's `action`, and by its `action1` where the machine has one
/// tape.
pub fn lookup(machine: &Machine, state: u16, read: [u8; 3]) -> Option<[u64; 7]> {
    let (q, read) = (State::new(state), read.map(Symbol::new));
    let action = machine.action(q, &read);
    if machine.tapes() == 1 {
        assert_eq!(action, machine.action1(q, read[0]), "the Rust's action and action1");
    }
    action.as_ref().map(numbers)
}

/// The word of an action of one tape, or of none; next × stride must have 64 bits.
pub fn packed_new(action: Option<(u8, u8, u16)>, stride: u64) -> u64 {
    let action = action.map(|(write, d, next)| Action::single(Symbol::new(write), dir(d), State::new(next)));
    door::word(Packed::new(action, stride as usize))
}

/// A word's parts: whether it is defined, move, write, next state, row.
pub fn packed(word: u64) -> [u64; 5] {
    let p = door::packed(word);
    let (write, next) = (u64::from(p.write().get()), u64::from(p.next().get()));
    [u64::from(p.is_defined()), number(p.dir()), write, next, p.row() as u64]
}

/// A word's action, defined or not.
pub fn packed_action(word: u64) -> [u64; 7] {
    numbers(&door::packed(word).action())
}

/// The machine's packed words.
pub fn words(machine: &Machine) -> Vec<u64> {
    machine.packed.iter().map(|&packed| door::word(packed)).collect()
}

/// A fresh engine.
pub fn fresh(machine: &Rc<Machine>, word: &[u8]) -> Sim {
    let word: Vec<Symbol> = word.iter().map(|&a| Symbol::new(a)).collect();
    Simulator::new(Rc::clone(machine), &word)
}

/// The engine with the given value, which must fit. `witness` is the Rust's hint, which must not
/// matter.
pub fn set(machine: &Rc<Machine>, state: u16, engine: &Engine, cells: [&[u8]; 3], witness: (i64, i64)) -> Sim {
    let tape = |i: usize| {
        let [len, origin, head, lowest, highest] = tape_fields(engine, i);
        let position = |index: u64| index as i64 - origin as i64;
        Tape {
            cells: cells[i][..len as usize].iter().map(|&a| Symbol::new(a)).collect(),
            origin: origin as usize,
            head: head as usize,
            touched: (position(lowest), position(highest)),
        }
    };
    Simulator {
        state: State::new(state),
        tapes: (0..machine.tapes()).map(tape).collect(),
        machine: Rc::clone(machine),
        steps: engine[0],
        witness,
    }
}

/// The engine's value as the port has it, in the fields of the machine's tapes; the others are
/// left alone.
pub fn value(sim: &Sim, engine: &mut Engine) {
    engine[0] = sim.steps;
    for (i, tape) in sim.tapes.iter().enumerate() {
        let index = |position: i64| (position + tape.origin as i64) as u64;
        engine[fields(i)..fields(i + 1)].copy_from_slice(&[
            tape.cells.len() as u64,
            tape.origin as u64,
            tape.head as u64,
            index(tape.touched.0),
            index(tape.touched.1),
        ]);
    }
}

/// Whether the tape's cells are these.
pub fn same_cells(tape: &Tape, cells: &[u8]) -> bool {
    tape.cells.len() == cells.len() && tape.cells.iter().zip(cells).all(|(s, &c)| s.get() == c)
}

/// The tape's cells as bytes.
pub fn cells(tape: &Tape) -> Vec<u8> {
    tape.cells.iter().map(|s| s.get()).collect()
}

/// Whether the next step would double a tape past its room, which is when the port is full.
pub fn is_full(sim: &Sim, room: [usize; 3]) -> bool {
    let Some(action) = sim.next_action() else {
        return false;
    };
    sim.tapes.iter().enumerate().any(|(i, tape)| {
        let len = tape.cells.len();
        let leaves = match action.dir[i] {
            Dir::L => tape.head == 0,
            Dir::R => tape.head == len - 1,
            Dir::N => false,
        };
        leaves && 2 * len > room[i]
    })
}

/// Runs with the port's stop rule: a `from` state, or 65,536 and above for none.
pub fn run(sim: &mut Sim, rule: u64, fuel: u64) -> Outcome {
    sim.run_until(fuel, |event| u64::from(event.from.get()) == rule)
}

/// Whether a run with this rule ends within `limit` steps for another reason than fuel.
pub fn ends_soon(sim: &Sim, room: [usize; 3], rule: u64, limit: u64) -> bool {
    let mut sim = sim.clone();
    for _ in 0..limit {
        if !matches!(sim.run(0), Outcome::OutOfFuel { .. }) || is_full(&sim, room) {
            return true;
        }
        let from = sim.state();
        if sim.steps >= MAX_STEPS {
            return false;
        }
        sim.step();
        if u64::from(from.get()) == rule {
            return true;
        }
    }
    false
}

/// An answer of `run` in the port's numbers: outcome, steps, state, pattern, move; `None` for the
/// parts that an outcome does not have.
pub fn answer(outcome: Outcome) -> [Option<u64>; 5] {
    let of_state = |state: State| Some(u64::from(state.get()));
    match outcome {
        Outcome::Halted { steps, state } => [Some(0), Some(steps), of_state(state), None, None],
        Outcome::OutOfFuel { steps } => [Some(1), Some(steps), None, None, None],
        Outcome::NeverHalts { steps, proof } => match proof {
            NonHaltProof::StayLoop { state } => [Some(2), Some(steps), of_state(state), Some(0), None],
            NonHaltProof::ChainToInfinity { state, dir } => {
                [Some(2), Some(steps), of_state(state), Some(1), Some(number(dir))]
            }
        },
        Outcome::Stopped { steps } => [Some(3), Some(steps), None, None, None],
    }
}

/// The symbol at a position.
pub fn get(sim: &Sim, tape: usize, at: i64) -> u8 {
    sim.tapes[tape].get(at).get()
}

/// The ends of the non-blank stretch.
pub fn non_blank(sim: &Sim, tape: usize) -> Option<(i64, i64)> {
    sim.tapes[tape].non_blank().map(|range| (*range.start(), *range.end()))
}

/// The number of non-blank cells.
pub fn count(sim: &Sim, tape: usize) -> u64 {
    sim.tapes[tape].count_non_blank()
}

/// A stretch of cells.
pub fn window(sim: &Sim, tape: usize, from: i64, len: usize) -> Vec<u8> {
    sim.tapes[tape].window(from, len).iter().map(|s| s.get()).collect()
}

/// The nearest non-blank cell, as the Rust answers it; `Err` where its index sum overflows.
pub fn find(sim: &Sim, tape: usize, from: i64, d: u8) -> Result<Option<i64>, Option<i64>> {
    let tape = &sim.tapes[tape];
    let found = tape.find_non_blank(from, dir(d));
    match (tape.origin as i64).checked_add(from) {
        Some(_) => Ok(found),
        None => Err(found),
    }
}
