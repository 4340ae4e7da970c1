//! One list of calls of the run-length engine on both sides, and every comparison.

use super::case::{Act, Begin, Case, Question};
use super::generate;
use super::held::Chained;
use super::law::{self, HEAD, HIGHEST, LEFT, LOWEST, MACROS, RIGHT, STEPS, Side, Value, ZERO};
use super::oracle::{self, End, Sim};
use crate::case::{Asking, NO_RULE, Subject};
use crate::generate::Rng;
use crate::law::{Engine, Refusal, fuel as fuel_refusal, tape_fields, when};
use crate::lent::{Held, Lent};
use crate::port::{self, ChainView, Out, Run};
use crate::tally::{Difference, FULL, OUT, Tally, same};

/// A list of calls under way.
struct Pairing<'a> {
    subject: &'a Subject,
    held: Chained,
    /// The oracle's engine, where the lent value fits.
    sim: Option<Sim>,
    /// What the lent value is refused for (8, 11 or 12).
    refusal: Option<Refusal>,
    plain: Option<Plain>,
    rng: Rng,
}

/// Runs a case on both sides.
pub fn run(case: &Case, tally: &mut Tally) -> Result<(), Difference> {
    tally.cases += 1;
    let mut pairing = Pairing::begin(case, tally)?;
    pairing.ask_around(case.asking, tally).map_err(|e| format!("at the beginning: {e}"))?;
    for (i, act) in case.acts.iter().enumerate() {
        match *act {
            Act::Run { rule, fuel } => pairing.run(rule, fuel, tally),
            Act::Ask(question) => pairing.ask(&question, tally),
            Act::Side { right, more } => pairing.side(right, more, tally),
        }
        .map_err(|e| format!("call {i}, {act:?}: {e}"))?;
        pairing.ask_around(case.asking, tally).map_err(|e| format!("after call {i}, {act:?}: {e}"))?;
    }
    Ok(())
}

impl<'a> Pairing<'a> {
    /// Makes the places and the first engine.
    fn begin(case: &'a Case, tally: &mut Tally) -> Result<Self, Difference> {
        let subject = &*case.subject;
        let mut rng = Rng::new(case.dirt);
        let held = Chained::begin(&case.begin, &mut rng);
        let mut pairing = Pairing { subject, held, sim: None, refusal: None, plain: None, rng };
        if let Begin::Fresh { word, .. } = &case.begin {
            pairing.fresh(word, tally).map_err(|e| format!("fresh engine: {e}"))?;
            if case.plain && pairing.sim.is_some() {
                pairing.plain = Plain::new(subject, word);
            }
        }
        pairing.look();
        Ok(pairing)
    }

    /// Takes the present value as the one before the next call, and sees whether it fits.
    fn look(&mut self) {
        self.held.look();
        let Some(machine) = &self.subject.machine else {
            return;
        };
        self.refusal = self.held.refusal(&self.subject.sizes);
        if self.refusal.is_none() && self.sim.is_none() {
            self.sim = Some(self.held.set(machine));
        }
    }

    /// The port's engine and live runs are the oracle's.
    fn compare(&self) -> Result<(), Difference> {
        self.held.compare(self.sim.as_ref().expect("an accepted engine has its oracle"), true)
    }

    fn fresh(&mut self, word: &[u8], tally: &mut Tally) -> Result<(), Difference> {
        let Subject { sizes, table, machine, refusal, .. } = self.subject;
        let [left, right] = self.held.places();
        let expected = refusal.or_else(|| law::fresh(sizes, word, left, right));
        let mut out = OUT;
        let (lent, value) = self.held.lend();
        let result = port::chain_new(*sizes, table, word, lent, value, &mut out);
        tally.calls += 1;
        let several = expected.is_some_and(|r| r.number == 8);
        if !self.held.settle((result, &out), expected, 0, tally)? {
            if several && oracle::fresh(machine.as_ref().expect("a good table"), &[]).is_some() {
                return Err(String::from("refused for several tapes, which the Rust takes"));
            }
            return Ok(());
        }
        same!(self.held.left.kept(), true, "the left run places are as they were");
        self.sim = oracle::fresh(machine.as_ref().expect("an accepted table has its machine"), word);
        self.compare()
    }

    fn run(&mut self, rule: u64, fuel: u64, tally: &mut Tally) -> Result<(), Difference> {
        let Subject { sizes, table, refusal, .. } = self.subject;
        let steps = self.held.value.engine[STEPS];
        let expected = refusal.or(self.refusal).or_else(|| fuel_refusal(steps, fuel));
        let mut want = None;
        if expected.is_none() {
            let Some(end) = self.expect(rule, fuel)? else {
                tally.skipped += 1;
                return Ok(());
            };
            want = Some(end);
        }
        let mut out = OUT;
        tally.calls += 1;
        let (lent, value) = self.held.lend();
        let result = port::chain_run(*sizes, table, lent, value, (rule, fuel), &mut out);
        if !self.held.settle((result, &out), expected, 5, tally)? {
            return Ok(());
        }
        let answer = want.expect("an accepted run was run before");
        if !(0..5).all(|i| answer[i].is_none_or(|w| w == out[i])) {
            let port = &out[..5];
            return Err(format!(
                "answer [outcome, steps, state, pattern, move]: the port has {port:?}, expected {answer:?}"
            ));
        }
        self.compare()?;
        let made = self.held.value.engine[STEPS] - steps;
        tally.outcomes[out[0] as usize] += 1;
        tally.departures[FULL] += u64::from(out[0] == 4);
        tally.steps += self.held.value.engine[MACROS] - self.held.before.engine[MACROS];
        tally.beside += u64::from(self.beside(made, &out)?);
        self.look();
        same!(self.refusal, None, "what the value handed back is refused for");
        Ok(())
    }

    /// Runs the oracle: the answer in numbers, or none where the run is endless.
    fn expect(&mut self, rule: u64, fuel: u64) -> Result<Option<[Option<u64>; 5]>, Difference> {
        let places = self.held.places();
        let sim = self.sim.as_mut().expect("an accepted engine has its oracle");
        let start = sim.clone();
        match oracle::drive(sim, places, rule, fuel, 2_000_000) {
            End::Late => {
                *sim = start;
                Ok(None)
            }
            End::Full => Ok(Some([Some(4), Some(sim.steps()), None, None, None])),
            End::Rust(outcome) => {
                let mut whole = start;
                same!(outcome, oracle::run(&mut whole, rule, fuel), "the Rust in one run and macro step by macro step");
                same!(oracle::value(sim), oracle::value(&whole), "the Rust in one run and macro step by macro step");
                *sim = whole;
                Ok(Some(crate::oracle::answer(outcome)))
            }
        }
    }

    /// The plain engine, after as many steps more, holds the same configuration. Says whether there
    /// is one.
    fn beside(&mut self, made: u64, out: &Out) -> Result<bool, Difference> {
        let Some(mut plain) = self.plain.take() else {
            return Ok(false);
        };
        if made > 100_000 || !plain.follow(self.subject, made, out)? {
            return Ok(false);
        }
        let left = self.held.left.runs(self.held.value.engine[LEFT])?;
        let right = self.held.right.runs(self.held.value.engine[RIGHT])?;
        plain.same_as(&self.held.value, &left, &right).map_err(|e| format!("plain and run-length engine: {e}"))?;
        self.plain = Some(plain);
        Ok(true)
    }

    /// The questions that follow a call.
    fn ask_around(&mut self, asking: Asking, tally: &mut Tally) -> Result<(), Difference> {
        let refused = self.subject.refusal.or(self.refusal).is_some();
        let sides = || (self.held.left.side(), self.held.right.side());
        let questions = match asking {
            Asking::None => return Ok(()),
            Asking::All if !refused => generate::questions(&self.held.value, sides()),
            Asking::All => (0..3).map(|_| generate::question(&mut self.rng, &self.held.value)).collect(),
            Asking::Some(n) => (0..n).map(|_| generate::question(&mut self.rng, &self.held.value)).collect(),
        };
        questions.iter().try_for_each(|question| self.ask(question, tally))?;
        if asking == Asking::All && !refused {
            let all = [false, true].into_iter().flat_map(|right| [-1, 0, 3].map(|more| (right, more)));
            return all.into_iter().try_for_each(|(right, more)| self.side(right, more, tally));
        }
        let (right, more) = (self.rng.once_in(2), self.rng.pick(&[-1, 0, 0, 1, 5]));
        self.side(right, more, tally)
    }

    /// The runs of a side, into so many records more (or fewer) than it has.
    fn side(&mut self, right: bool, more: isize, tally: &mut Tally) -> Result<(), Difference> {
        self.runs(right, more, tally).map_err(|e| format!("{} runs: {e}", if right { "right" } else { "left" }))
    }

    fn runs(&mut self, right: bool, more: isize, tally: &mut Tally) -> Result<(), Difference> {
        let Subject { sizes, table, refusal, .. } = self.subject;
        let (Side(ls, ll), Side(rs, rl)) = (self.held.left.side(), self.held.right.side());
        let Value { state, cur, engine } = &self.held.value;
        let count = engine[if right { RIGHT } else { LEFT }];
        // A value that does not fit may claim any number of runs.
        let room = count.min(self.held.places()[usize::from(right)]).saturating_add_signed(more as i64) as usize;
        let expected = refusal.or(self.refusal).or_else(|| when((room as u64) < count, 18));
        tally.questions += 1;
        let view = ChainView { sizes: *sizes, table, places: (ls, ll, rs, rl), state: *state, cur: *cur, engine };
        let dirt = Run { symbol: 0xa5, len: 0xa5a5_a5a5_a5a5_a5a5 };
        let (mut out, mut runs) = (OUT, Lent::new(dirt, std::iter::repeat_n(dirt, room)));
        let result = if right { view.right(runs.lend(), &mut out) } else { view.left(runs.lend(), &mut out) };
        let accepted = self.held.settle((result, &out), expected, 1, tally)?;
        self.held.unchanged()?;
        let written = if accepted { count as usize } else { 0 };
        same!(runs.kept_past(written), true, "records past the {written} runs are as they were");
        if accepted {
            let sim = self.sim.as_ref().expect("an accepted engine has its oracle");
            let want = if right { sim.tape().right() } else { sim.tape().left() };
            let listed: Vec<(u8, u64)> = runs.part()[..written].iter().map(|run| (run.symbol, run.len)).collect();
            same!(out[0], want.len() as u64, "number of runs");
            same!(listed, oracle::runs(want), "runs, topmost last");
        }
        Ok(())
    }

    /// One question.
    fn ask(&mut self, question: &Question, tally: &mut Tally) -> Result<(), Difference> {
        self.answer(question, tally).map_err(|e| format!("question {question:?}: {e}"))
    }

    fn answer(&mut self, question: &Question, tally: &mut Tally) -> Result<(), Difference> {
        let Subject { sizes, table, refusal, .. } = self.subject;
        let expected = refusal.or(self.refusal);
        tally.questions += 1;
        let (Side(ls, ll), Side(rs, rl)) = (self.held.left.side(), self.held.right.side());
        let Value { state, cur, engine } = &self.held.value;
        let view = ChainView { sizes: *sizes, table, places: (ls, ll, rs, rl), state: *state, cur: *cur, engine };
        let mut out = OUT;
        let mut window = Lent::new(0xa5, std::iter::empty());
        let (result, documented) = match *question {
            Question::Get { at } => (view.get(at, &mut out), 1),
            Question::NonBlank => (view.non_blank(&mut out), 3),
            Question::Count => (view.count(&mut out), 1),
            Question::Window { from, len } => {
                window = Lent::new(0xa5, std::iter::repeat_n(0xa5, len));
                (view.window(from, window.lend(), &mut out), 0)
            }
        };
        let accepted = self.held.settle((result, &out), expected, documented, tally)?;
        self.held.unchanged()?;
        if !accepted {
            same!(window.kept(), true, "a refused window is as it was");
            return Ok(());
        }
        same!(window.kept_past(window.room()), true, "memory around the window is as it was");
        let sim = self.sim.as_ref().expect("an accepted engine has its oracle");
        answered(sim, question, &out, window.part())
    }
}

/// Whether an answer is the oracle's.
fn answered(sim: &Sim, question: &Question, out: &Out, window: &[u8]) -> Result<(), Difference> {
    match *question {
        Question::Get { at } => same!(out[0], u64::from(oracle::get(sim, at)), "symbol"),
        Question::NonBlank => {
            same!(out[0] > 1, false, "out[0] = {} is 0 or 1", out[0]);
            let port = (out[0] != 0).then(|| (port::lowered(out[1]), port::lowered(out[2])));
            same!(port, oracle::non_blank(sim), "non-blank stretch");
        }
        Question::Count => same!(out[0], oracle::count(sim), "count"),
        Question::Window { from, len } => same!(*window, *oracle::window(sim, from, len), "window"),
    }
    Ok(())
}

/// The port's plain engine on the same table and word.
struct Plain {
    cells: Vec<u8>,
    state: u16,
    engine: Engine,
}

impl Plain {
    const ROOM: usize = 1 << 12;

    fn new(subject: &Subject, word: &[u8]) -> Option<Self> {
        let mut plain = Plain { cells: vec![0; Self::ROOM], state: 0, engine: [0; 16] };
        let cells: port::CellsMut = [&mut plain.cells, &mut [], &mut []];
        let (state, engine) = (&mut plain.state, &mut plain.engine);
        let result = port::new(subject.sizes, &subject.table, word, cells, state, engine, &mut OUT.clone());
        (result == 0).then_some(plain)
    }

    /// Makes as many steps; `out` is the run-length engine's answer. No more is said once it is full.
    fn follow(&mut self, subject: &Subject, made: u64, out: &Out) -> Result<bool, Difference> {
        let mut plain = OUT;
        let cells: port::CellsMut = [&mut self.cells, &mut [], &mut []];
        let (s, t) = (subject.sizes, &subject.table);
        let result = port::run(s, t, cells, &mut self.state, &mut self.engine, (NO_RULE, made), &mut plain);
        same!(result, 0, "the plain engine's result");
        if plain[0] == 4 {
            return Ok(false);
        }
        match out[0] {
            3 | 4 => same!(plain[..2], [1, out[1]], "the plain engine's answer where the other stopped or was full"),
            _ => same!(plain[..5], out[..5], "answers of the plain and of the run-length engine"),
        }
        Ok(true)
    }

    /// Whether state, steps, head, lowest, highest and every cell agree with these.
    fn same_as(&self, value: &Value, left: &[(u8, u64)], right: &[(u8, u64)]) -> Result<(), Difference> {
        let [len, origin, head, lowest, highest] = tape_fields(&self.engine, 0);
        let raised = |index: u64| ZERO + index - origin;
        let at = |i: usize| value.engine[i];
        same!((value.state, at(STEPS)), (self.state, self.engine[0]), "state and steps");
        let want = [head, lowest, highest].map(raised);
        same!([at(HEAD), at(LOWEST), at(HIGHEST)], want, "head, lowest, highest");
        let outer = |cells: &mut dyn Iterator<Item = &u8>| -> Vec<u8> { cells.copied().collect() };
        let tape = &self.cells[..len as usize];
        let (before, after) = tape.split_at(head as usize);
        same!(value.cur, after[0], "symbol under the head");
        same!(expanded(left), trimmed(outer(&mut before.iter().rev())), "cells to the left, nearest first");
        same!(expanded(right), trimmed(outer(&mut after[1..].iter())), "cells to the right, nearest first");
        Ok(())
    }
}

/// The cells of a stack, nearest first.
fn expanded(runs: &[(u8, u64)]) -> Vec<u8> {
    runs.iter().rev().flat_map(|&(symbol, len)| std::iter::repeat_n(symbol, len as usize)).collect()
}

/// Without the blanks at the end.
fn trimmed(mut cells: Vec<u8>) -> Vec<u8> {
    cells.truncate(cells.iter().rposition(|&c| c != 0).map_or(0, |i| i + 1));
    cells
}
