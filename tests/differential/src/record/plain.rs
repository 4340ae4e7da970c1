//! Cases of the plain engine, of packing, and of tape questions.

use super::{Line, REACH, ahead, fuel, ground};
use crate::case::{NO_RULE, Question, Subject};
use crate::generate::{self, Rng};
use crate::law::tape_fields;
use crate::oracle::{self, Sim};
use crate::outcome::Status;
use std::rc::Rc;

/// The cells of each tape that `replay` lends.
pub const CELLS: [usize; 3] = [512, 128, 128];

/// Whether the port never lacked space on the way here: tapes never get shorter.
pub fn has_room(sim: &Sim) -> bool {
    sim.tapes().iter().zip(CELLS).all(|(tape, room)| oracle::cells(tape).len() <= room)
}

/// A machine, a word, and a fresh engine on it after a run; what is written of it.
pub fn begin(rng: &mut Rng, several: bool) -> Option<(Line, Rc<Subject>, Sim)> {
    let (subject, word) = ground(rng, several)?;
    let mut sim = oracle::fresh(subject.machine.as_ref()?, &word);
    let ahead = ahead(rng);
    oracle::run(&mut sim, NO_RULE, ahead);
    let mut line = Line::default();
    line.machine(&subject);
    line.list(&word);
    line.put(ahead);
    has_room(&sim).then_some((line, subject, sim))
}

/// The engine: state, steps, and of each tape its length, the index of position 0, the head, the lowest and the highest
/// position, and its cells in runs.
pub fn engine(line: &mut Line, sim: &Sim) {
    let mut value = [0; 16];
    oracle::value(sim, &mut value);
    line.put(sim.state().get());
    line.put(sim.steps());
    for (i, tape) in sim.tapes().iter().enumerate() {
        let [len, origin, head, lowest, highest] = tape_fields(&value, i).map(|x| x as i64);
        line.puts([len, origin, head - origin, lowest - origin, highest - origin]);
        line.runs(&oracle::cells(tape));
    }
}

/// A run with this stop rule.
fn run_by(rng: &mut Rng, mut line: Line, mut sim: Sim, rule: u64) -> Option<Line> {
    let fuel = fuel(rng, sim.steps())?;
    if fuel > REACH && !oracle::ends_soon(&sim, [usize::MAX; 3], rule, REACH) {
        return None;
    }
    line.puts([rule, fuel]);
    line.answer(oracle::run(&mut sim, rule, fuel));
    engine(&mut line, &sim);
    has_room(&sim).then_some(line)
}

/// A run without a stop rule.
pub fn run(rng: &mut Rng) -> Option<Line> {
    let (line, _, sim) = begin(rng, true)?;
    run_by(rng, line, sim, NO_RULE)
}

/// A run with one; a state not below n never matches.
pub fn stop(rng: &mut Rng) -> Option<Line> {
    let (line, subject, sim) = begin(rng, true)?;
    let rule = rng.between(0, subject.sizes.states);
    run_by(rng, line, sim, rule)
}

/// A fast run, with a stop rule or without.
pub fn fast(rng: &mut Rng) -> Option<Line> {
    let (line, subject, sim) = begin(rng, false)?;
    let state = rng.below(subject.sizes.states);
    let rule = rng.pick(&[NO_RULE, state]);
    run_by(rng, line, sim, rule)
}

/// One step.
pub fn step(rng: &mut Rng) -> Option<Line> {
    let (mut line, _, mut sim) = begin(rng, true)?;
    line.put(match sim.step() {
        Status::Running => 0,
        Status::Halted => 1,
    });
    engine(&mut line, &sim);
    has_room(&sim).then_some(line)
}

/// The packed words of a table.
pub fn pack(rng: &mut Rng) -> Option<Line> {
    let (subject, _) = ground(rng, false)?;
    let mut line = Line::default();
    line.machine(&subject);
    line.puts(&subject.words);
    Some(line)
}

/// Questions: how many, and of each its number, the tape, a position, and a length or a move; then the answers.
pub fn ask(rng: &mut Rng) -> Option<Line> {
    let (mut line, subject, sim) = begin(rng, true)?;
    let mut value = [0; 16];
    oracle::value(&sim, &mut value);
    let questions: Vec<Question> = (0..rng.between(2, 6))
        .map(|_| {
            let tape = rng.below(subject.sizes.tapes) as usize;
            generate::question(rng, tape, &tape_fields(&value, tape))
        })
        .collect();
    line.put(questions.len());
    questions.iter().for_each(|question| put(&mut line, question));
    questions.iter().try_for_each(|question| answer(&mut line, &sim, question))?;
    Some(line)
}

fn put(line: &mut Line, question: &Question) {
    let (number, tape, at, more) = match *question {
        Question::Get { tape, at } => (0, tape, at, 0),
        Question::NonBlank { tape } => (1, tape, 0, 0),
        Question::Count { tape } => (2, tape, 0, 0),
        Question::Window { tape, from, len } => (3, tape, from, len),
        Question::Find { tape, from, dir } => (4, tape, from, usize::from(dir)),
    };
    line.puts([number, tape]);
    line.put(at);
    line.put(more);
}

/// None where the Rust's index sum overflows, or the window is long.
fn answer(line: &mut Line, sim: &Sim, question: &Question) -> Option<()> {
    match *question {
        Question::Get { tape, at } => line.put(oracle::get(sim, tape as usize, at)),
        Question::NonBlank { tape } => match oracle::non_blank(sim, tape as usize) {
            None => line.put(0),
            Some((from, to)) => line.puts([1, from, to]),
        },
        Question::Count { tape } => line.put(oracle::count(sim, tape as usize)),
        Question::Window { len, .. } if len > 60 => return None,
        Question::Window { tape, from, len } => line.puts(oracle::window(sim, tape as usize, from, len)),
        Question::Find { tape, from, dir } => match oracle::find(sim, tape as usize, from, dir).ok()? {
            None => line.put(0),
            Some(at) => line.puts([1, at]),
        },
    }
    Some(())
}
