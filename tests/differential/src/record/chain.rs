//! Cases of the run-length engine.

use super::{Line, REACH, ahead, fuel, ground};
use crate::case::{NO_RULE, Subject};
use crate::chain::case::Question;
use crate::chain::generate;
use crate::chain::law::{Value, ZERO};
use crate::chain::oracle::{self, End, Sim};
use crate::generate::Rng;
use std::rc::Rc;

/// The run places of each side that `replay` lends.
pub const PLACES: [u64; 2] = [48, 48];

/// A run, if the port has places for it and it does not take long.
fn made(sim: &mut Sim, rule: u64, fuel: u64) -> Option<crate::outcome::Outcome> {
    let end = oracle::drive(&mut sim.clone(), PLACES, rule, fuel, REACH);
    matches!(end, End::Rust(_)).then(|| oracle::run(sim, rule, fuel))
}

/// A machine, a word, and a fresh engine on it after a run; what is written of it.
pub fn begin(rng: &mut Rng) -> Option<(Line, Rc<Subject>, Sim)> {
    let (subject, word) = ground(rng, false)?;
    let mut sim = oracle::fresh(subject.machine.as_ref()?, &word)?;
    let ahead = ahead(rng);
    made(&mut sim, NO_RULE, ahead)?;
    let mut line = Line::default();
    line.machine(&subject);
    line.list(&word);
    line.put(ahead);
    Some((line, subject, sim))
}

/// The engine but for its macro steps: state, symbol under the head, steps, head, lowest, highest, and of the left and
/// the right side how many runs it has and, from the bottom up, the symbol and the length of each.
pub fn engine(line: &mut Line, sim: &Sim) {
    let Value { state, cur, engine } = oracle::value(sim);
    let [steps, _, _, _, at @ ..] = engine;
    line.put(state);
    line.put(cur);
    line.put(steps);
    line.puts(at.map(|raised| (raised ^ ZERO) as i64));
    for side in [sim.tape().left(), sim.tape().right()] {
        line.put(side.len());
        oracle::runs(side).into_iter().for_each(|(symbol, len)| {
            line.put(symbol);
            line.put(len);
        });
    }
}

/// A run with this stop rule.
fn run_by(rng: &mut Rng, mut line: Line, mut sim: Sim, rule: u64) -> Option<Line> {
    let fuel = fuel(rng, sim.steps())?;
    line.puts([rule, fuel]);
    line.answer(made(&mut sim, rule, fuel)?);
    line.put(sim.macro_steps());
    engine(&mut line, &sim);
    Some(line)
}

/// A run without a stop rule.
pub fn run(rng: &mut Rng) -> Option<Line> {
    let (line, _, sim) = begin(rng)?;
    run_by(rng, line, sim, NO_RULE)
}

/// A run with one; a state not below n never matches.
pub fn stop(rng: &mut Rng) -> Option<Line> {
    let (line, subject, sim) = begin(rng)?;
    let rule = rng.between(0, subject.sizes.states);
    run_by(rng, line, sim, rule)
}

/// Questions: how many, and of each its number, a position and a length; then the answers.
pub fn ask(rng: &mut Rng) -> Option<Line> {
    let (mut line, _, sim) = begin(rng)?;
    let value = oracle::value(&sim);
    let questions: Vec<Question> = (0..rng.between(2, 6)).map(|_| generate::question(rng, &value)).collect();
    line.put(questions.len());
    for question in &questions {
        let (number, at, more) = match *question {
            Question::Get { at } => (0, at, 0),
            Question::NonBlank => (1, 0, 0),
            Question::Count => (2, 0, 0),
            Question::Window { from, len } => (3, from, len),
        };
        line.put(number);
        line.put(at);
        line.put(more);
    }
    questions.iter().for_each(|question| answer(&mut line, &sim, question));
    Some(line)
}

fn answer(line: &mut Line, sim: &Sim, question: &Question) {
    match *question {
        Question::Get { at } => line.put(oracle::get(sim, at)),
        Question::NonBlank => match oracle::non_blank(sim) {
            None => line.put(0),
            Some((from, to)) => line.puts([1, from, to]),
        },
        Question::Count => line.put(oracle::count(sim)),
        Question::Window { from, len } => line.puts(oracle::window(sim, from, len)),
    }
}
