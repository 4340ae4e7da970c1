//! One list of calls on both sides: every call on the port, the same on the oracle, and everything
//! compared after it.

use std::borrow::Cow;

use crate::case::{Act, Asking, Begin, Case, Question, Subject, Words};
use crate::generate::{self, Rng};
use crate::held::Plain;
use crate::law::{self, Refusal, fields, tape_fields};
use crate::lent::{GUARD, Held};
use crate::oracle::{self, Sim};
use crate::port::{self, Out, View};
use crate::tally::{Difference, FAR_FIND, FULL, LACKING_SYMBOL, OUT, Tally, same};

/// A list of calls under way.
struct Pairing<'a> {
    subject: &'a Subject,
    held: Plain,
    /// The oracle's engine, where the lent value fits.
    sim: Option<Sim>,
    /// What the lent value is refused for (11 or 12).
    refusal: Option<Refusal>,
    rng: Rng,
}

/// Runs a case on both sides.
pub fn run(case: &Case, tally: &mut Tally) -> Result<(), Difference> {
    tally.cases += 1;
    let mut pairing = Pairing::begin(case, tally)?;
    pairing.ask_around(case.asking, tally).map_err(|e| format!("at the beginning: {e}"))?;
    let mut idle = 0;
    for (i, act) in case.acts.iter().enumerate() {
        let moved = pairing.act(act, tally).map_err(|e| format!("call {i}, {act:?}: {e}"))?;
        pairing.ask_around(case.asking, tally).map_err(|e| format!("after call {i}, {act:?}: {e}"))?;
        idle = if moved { 0 } else { idle + 1 };
        if case.cut && idle == 2 {
            break;
        }
    }
    Ok(())
}

impl<'a> Pairing<'a> {
    /// Makes the buffers and the first engine.
    fn begin(case: &'a Case, tally: &mut Tally) -> Result<Self, Difference> {
        let subject = &*case.subject;
        let mut rng = Rng::new(case.dirt);
        let held = Plain::begin(&case.begin, &mut rng);
        let mut pairing = Pairing { subject, held, sim: None, refusal: None, rng };
        if let Begin::Fresh { word, .. } = &case.begin {
            pairing.fresh(word, tally).map_err(|e| format!("fresh engine: {e}"))?;
        }
        pairing.look();
        Ok(pairing)
    }

    /// The machine's number of tapes, for a table that passed its check.
    fn tapes(&self) -> usize {
        self.subject.sizes.tapes as usize
    }

    /// Takes the present value as the one before the next call, and sees whether it fits.
    fn look(&mut self) {
        self.held.look();
        let Some(machine) = &self.subject.machine else {
            return;
        };
        self.refusal = self.held.refusal(&self.subject.sizes);
        if self.refusal.is_none() && self.sim.is_none() {
            let witness = ((self.rng.below(200) as i64) - 100, (self.rng.below(200) as i64) - 100);
            self.sim = Some(self.held.set(machine, witness));
        }
    }

    /// The port's engine and buffers are the oracle's.
    fn compare(&self) -> Result<(), Difference> {
        self.held.compare(self.sim.as_ref().expect("an accepted engine has its oracle"))
    }

    fn fresh(&mut self, word: &[u8], tally: &mut Tally) -> Result<(), Difference> {
        let Subject { sizes, table, machine, .. } = self.subject;
        let expected = self.subject.refusal.or_else(|| sizes.fresh(word, self.held.room()));
        let mut out = OUT;
        let (cells, state, engine) = self.held.lend();
        let result = port::new(*sizes, table, word, cells, state, engine, &mut out);
        tally.calls += 1;
        if !self.held.settle((result, &out), expected, 0, tally)? {
            return Ok(());
        }
        let machine = machine.as_ref().expect("an accepted table has its machine");
        self.sim = Some(oracle::fresh(machine, word));
        self.held.accept_lacking(self.tapes());
        self.compare()?;
        if self.rng.below(2) == 0 {
            for field in &mut self.held.engine[fields(self.subject.sizes.tapes as usize)..] {
                *field = self.rng.next();
            }
        }
        Ok(())
    }

    /// One call; says whether a run or step moved on (any other call does).
    fn act(&mut self, act: &Act, tally: &mut Tally) -> Result<bool, Difference> {
        if let Act::Ask(question) = act {
            self.ask(question, tally)?;
            return Ok(true);
        }
        tally.calls += 1;
        match *act {
            Act::Check => self.check(tally),
            Act::Pack { more } => self.pack(more, tally),
            Act::Lookup { state, read } => self.lookup(state, read, tally),
            Act::Step => self.step(tally),
            Act::Run { rule, fuel } => self.run(rule, fuel, None, tally),
            Act::Fast { rule, fuel, words } => {
                let words = lent_words(self.subject, words);
                self.run(rule, fuel, Some(&words), tally)
            }
            Act::Ask(_) => unreachable!("answered above"),
        }
    }

    fn check(&mut self, tally: &mut Tally) -> Result<bool, Difference> {
        let Subject { sizes, table, refusal, .. } = self.subject;
        let mut out = OUT;
        let result = port::check(*sizes, table, &mut out);
        self.held.settle((result, &out), *refusal, 0, tally)?;
        Ok(true)
    }

    fn pack(&mut self, more: isize, tally: &mut Tally) -> Result<bool, Difference> {
        let Subject { sizes, table, refusal, words: rust, .. } = self.subject;
        let entries = table.len() / 8;
        let room = entries.saturating_add_signed(more);
        let expected = refusal.or_else(|| sizes.packing(room));
        let dirt = |i: usize| 0xeeee_0000_0000_0000 + i as u64;
        let mut words: Vec<u64> = (0..room).map(dirt).collect();
        let mut out = OUT;
        let result = port::pack(*sizes, table, &mut words, &mut out);
        let accepted = self.held.settle((result, &out), expected, 0, tally)?;
        let written = if accepted { entries } else { 0 };
        if accepted {
            same!(words[..entries], **rust, "packed words (against the Rust's)");
            same!(words[..entries], *sizes.words(table), "packed words (against the formula)");
        }
        if let Some(i) = (written..room).find(|&i| words[i] != dirt(i)) {
            return Err(format!("word {i}, past the {written} packed ones, changed"));
        }
        Ok(true)
    }

    fn lookup(&mut self, state: u16, read: [u8; 3], tally: &mut Tally) -> Result<bool, Difference> {
        let Subject { sizes, table, refusal, machine, .. } = self.subject;
        let mut out = OUT;
        let result = port::lookup(*sizes, table, state, read, &mut out);
        if !self.held.settle((result, &out), *refusal, 8, tally)? {
            return Ok(true);
        }
        let want = sizes.entry(table, state, read);
        same!(entry_in(&out)?, want, "entry (by its number)");
        let rust = oracle::lookup(machine.as_ref().expect("an accepted table has its machine"), state, read);
        if read[self.tapes()..].iter().all(|&a| a == 0) {
            same!(entry_in(&out)?, rust, "entry (the Rust's)");
        } else {
            tally.departures[LACKING_SYMBOL] += u64::from(rust != want);
        }
        Ok(true)
    }

    fn step(&mut self, tally: &mut Tally) -> Result<bool, Difference> {
        let Subject { sizes, table, refusal, .. } = self.subject;
        let expected = refusal.or(self.refusal).or_else(|| law::fuel(self.held.engine[0], 1));
        let mut out = OUT;
        let (cells, state, engine) = self.held.lend();
        let result = port::step(*sizes, table, cells, state, engine, &mut out);
        if !self.held.settle((result, &out), expected, 1, tally)? {
            return Ok(true);
        }
        let room = self.held.room();
        let sim = self.sim.as_mut().expect("an accepted engine has its oracle");
        let want = if oracle::is_full(sim, room) {
            tally.departures[FULL] += 1;
            2
        } else {
            match sim.step() {
                crate::outcome::Status::Running => 0,
                crate::outcome::Status::Halted => 1,
            }
        };
        same!(out[0], want, "step's answer (0 running, 1 halted, 2 full)");
        self.compare()?;
        if want == 0 {
            tally.steps += 1;
            self.look();
        }
        Ok(want == 0)
    }

    /// A run, or a fast run with these words.
    fn run(&mut self, rule: u64, fuel: u64, words: Option<&[u64]>, tally: &mut Tally) -> Result<bool, Difference> {
        let Subject { sizes, table, refusal, words: right, .. } = self.subject;
        let steps = self.held.engine[0];
        let expected = refusal
            .or_else(|| words.and_then(|lent| law::packed(sizes, right, lent)))
            .or(self.refusal)
            .or_else(|| law::fuel(steps, fuel));
        let room = self.held.room();
        if expected.is_none() && fuel > 2_000_000 {
            let sim = self.sim.as_ref().expect("an accepted engine has its oracle");
            if !oracle::ends_soon(sim, room, rule, 20_000) {
                tally.skipped += 1;
                return Ok(true);
            }
        }
        let mut out = OUT;
        let (cells, state, engine) = self.held.lend();
        let result = match words {
            None => port::run(*sizes, table, cells, state, engine, (rule, fuel), &mut out),
            Some(w) => port::run_packed(*sizes, table, w, cells, state, engine, (rule, fuel), &mut out),
        };
        if !self.held.settle((result, &out), expected, 5, tally)? {
            return Ok(true);
        }
        let [number, end, ..] = out;
        if end < steps || end - steps > fuel {
            return Err(format!("answer {:?}: from {steps} steps, with fuel {fuel}", &out[..5]));
        }
        let made = end - steps;
        let sim = self.sim.as_mut().expect("an accepted engine has its oracle");
        if number == 4 {
            let want = oracle::answer(oracle::run(sim, rule, made));
            if want[..2] != [Some(1), Some(end)] {
                return Err(format!("the port is full at {end}, expected {want:?}"));
            }
            if made == fuel || !oracle::is_full(sim, room) {
                return Err(format!("the port is full at {end}, where there is no fuel left or room enough"));
            }
            tally.departures[FULL] += 1;
        } else {
            // Some fuel more than the port used: enough to tell, and no endless run.
            let want = oracle::answer(oracle::run(sim, rule, fuel.min(made + 64)));
            let same = |i: usize| want[i].is_none_or(|w| w == out[i]);
            if !(0..5).all(same) {
                return Err(format!(
                    "answer [outcome, steps, state, pattern, move]: the port has {:?}, expected {want:?}",
                    &out[..5]
                ));
            }
        }
        self.compare()?;
        tally.outcomes[number as usize] += 1;
        tally.steps += made;
        if made > 0 {
            self.look();
        }
        Ok(made > 0)
    }

    /// The questions that follow a call.
    fn ask_around(&mut self, asking: Asking, tally: &mut Tally) -> Result<(), Difference> {
        if asking == Asking::None {
            return Ok(());
        }
        let tapes = self.tapes().clamp(1, 3);
        // Where all are refused, a few will do.
        let refused = self.subject.refusal.or(self.refusal).is_some();
        let asking = if refused { Asking::Some(3) } else { asking };
        if let Asking::Some(n) = asking {
            for _ in 0..n {
                let tape = self.rng.below(tapes as u64) as usize;
                let question = generate::question(&mut self.rng, tape, &tape_fields(&self.held.engine, tape));
                self.ask(&question, tally)?;
            }
        } else {
            for tape in 0..tapes {
                for question in generate::questions(tape, &tape_fields(&self.held.engine, tape)) {
                    self.ask(&question, tally)?;
                }
            }
        }
        Ok(())
    }

    /// One question.
    fn ask(&mut self, question: &Question, tally: &mut Tally) -> Result<(), Difference> {
        self.answer(question, tally).map_err(|e| format!("question {question:?}: {e}"))
    }

    fn answer(&mut self, question: &Question, tally: &mut Tally) -> Result<(), Difference> {
        let Subject { sizes, table, refusal, .. } = self.subject;
        let tape = match *question {
            Question::Get { tape, .. }
            | Question::NonBlank { tape }
            | Question::Count { tape }
            | Question::Window { tape, .. }
            | Question::Find { tape, .. } => tape,
        };
        let expected = refusal.or(self.refusal).or_else(|| law::tape_number(sizes, tape));
        tally.questions += 1;
        let held = &self.held;
        let view = View { sizes: *sizes, table, cells: held.cells(), state: held.state, engine: &held.engine };
        let mut out = OUT;
        let mut lent = Vec::new();
        let (result, documented) = match *question {
            Question::Get { at, .. } => (view.get(tape, at, &mut out), 1),
            Question::NonBlank { .. } => (view.non_blank(tape, &mut out), 3),
            Question::Count { .. } => (view.count(tape, &mut out), 1),
            Question::Window { from, len, .. } => {
                lent = vec![0xa5; len + 2 * GUARD];
                (view.window(tape, from, &mut lent[GUARD..GUARD + len], &mut out), 0)
            }
            Question::Find { from, dir, .. } => (view.find(tape, from, dir, &mut out), 2),
        };
        if !held.settle((result, &out), expected, documented, tally)? {
            if lent.iter().any(|&b| b != 0xa5) {
                return Err(String::from("a refused window was written to"));
            }
            return Ok(());
        }
        held.unchanged()?;
        let sim = self.sim.as_ref().expect("an accepted engine has its oracle");
        let tape = tape as usize;
        match *question {
            Question::Get { at, .. } => same!(out[0], u64::from(oracle::get(sim, tape, at)), "symbol"),
            Question::NonBlank { .. } => {
                same!(out[0] > 1, false, "out[0] = {} is 0 or 1", out[0]);
                let port = (out[0] != 0).then(|| (port::lowered(out[1]), port::lowered(out[2])));
                same!(port, oracle::non_blank(sim, tape), "non-blank stretch");
            }
            Question::Count { .. } => same!(out[0], oracle::count(sim, tape), "count"),
            Question::Window { from, len, .. } => {
                same!(lent[GUARD..GUARD + len], *oracle::window(sim, tape, from, len), "window");
                let guards = lent[..GUARD].iter().chain(&lent[GUARD + len..]);
                if guards.into_iter().any(|&b| b != 0xa5) {
                    return Err(String::from("bytes around the window changed"));
                }
            }
            Question::Find { from, dir, .. } => {
                same!(out[0] > 1, false, "out[0] = {} is 0 or 1", out[0]);
                let port = (out[0] != 0).then(|| port::lowered(out[1]));
                match oracle::find(sim, tape, from, dir) {
                    Ok(want) => same!(port, want, "place found"),
                    Err(rust) => {
                        let [len, origin, ..] = tape_fields(&self.held.engine, tape);
                        let cells = &held.cells()[tape][..len as usize];
                        let want = law::find_non_blank(cells, origin, from, dir);
                        same!(port, want, "place found (by definition, the Rust's sum overflows)");
                        if want != rust {
                            tally.departures[FAR_FIND] += 1;
                        }
                    }
                }
            }
        }
        Ok(())
    }
}

/// An entry as `out` gives it: next state, writes, moves; none leaves all but `out[0]` as it was.
pub fn entry_in(out: &Out) -> Result<Option<[u64; 7]>, Difference> {
    same!(out[0] > 1, false, "out[0] = {} is 0 or 1", out[0]);
    if out[0] == 0 {
        same!(out[1..], OUT[1..], "out past an undefined entry");
        return Ok(None);
    }
    Ok(Some(std::array::from_fn(|i| out[1 + i])))
}

/// The words that are lent to a fast run.
fn lent_words(subject: &Subject, words: Words) -> Cow<'_, [u64]> {
    if words == Words::Right {
        return Cow::Borrowed(&subject.words);
    }
    let mut lent = subject.words.clone();
    match words {
        Words::Right => {}
        Words::Changed(at, by) => match lent.len() {
            0 => lent.push(by),
            n => lent[at % n] ^= by,
        },
        Words::Shorter => {
            lent.pop();
        }
        Words::Longer => lent.push(3),
        Words::Empty => lent.clear(),
    }
    Cow::Owned(lent)
}
