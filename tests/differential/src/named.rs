//! The smallest input of each departure that docs/DIFFERENCES.md names, on both sides, with both answers written here.

use std::panic::{AssertUnwindSafe, catch_unwind, set_hook, take_hook};
use std::rc::Rc;

use crate::case::{NO_RULE, Subject};
use crate::chain::law::{Value, ZERO};
use crate::chain::oracle as rle;
use crate::checkpoint::{Engine as _, Timeline};
use crate::generate::one_tape;
use crate::machine::Machine;
use crate::outcome::Outcome;
use crate::port::{self, ChainView, Run, View};
use crate::rle::RunTape;
use crate::runner::Runner;
use crate::runs::{L, R, alternating, listing, walkers};
use crate::symbol::Symbol;
use crate::tally::OUT;
use crate::tape::TapeView;
use crate::timeline::ffi;
use crate::timeline::law::Times;
use crate::{law, oracle};

/// Whether it panics, silently.
fn panics<T>(f: impl FnOnce() -> T) -> bool {
    let hook = take_hook();
    set_hook(Box::new(|_| {}));
    let ended = catch_unwind(AssertUnwindSafe(f));
    set_hook(hook);
    ended.is_err()
}

fn machine(subject: &Subject) -> &Rc<Machine> {
    subject.machine.as_ref().expect("a good table")
}

/// One state, one symbol, no entry: the smallest machine.
fn least() -> Rc<Subject> {
    one_tape(1, 1, &[])
}

/// A fresh plain engine's result, on one word, in so many cells of each tape.
fn fresh(s: &Subject, word: &[u8], room: usize) -> u8 {
    let [mut a, mut b, mut c] = [0; 3].map(|_| vec![0; room]);
    port::new(s.sizes, &s.table, word, [&mut a, &mut b, &mut c], &mut 0, &mut [0; 16], &mut OUT.clone())
}

/// A fresh run-length engine's result, on one word, with so many places on the left and on the right.
fn fresh_chain(s: &Subject, word: &[u8], left: usize, right: usize) -> u8 {
    let (mut ls, mut ll, mut rs, mut rl) = (vec![0; left], vec![0; left], vec![0; right], vec![0; right]);
    let mut value = Value { state: 0, cur: 0, engine: [0; 7] };
    port::chain_new(s.sizes, &s.table, word, (&mut ls, &mut ll, &mut rs, &mut rl), &mut value, &mut OUT.clone())
}

pub fn departures(r: &mut Runner) {
    engines(r);
    several_tapes(r);
    questions(r);
    words(r);
    timelines(r);
    far(r);
}

/// Refusals 9, 10 and 11, and a side without places: what the Rust makes or runs.
fn engines(r: &mut Runner) {
    let least = least();
    let long = vec![0; law::MAX_WORD + 1];
    r.fact(fresh(&least, &long, law::MAX_WORD + 33) == 9, "9: a word of 1,048,577 symbols, plain");
    r.fact(fresh_chain(&least, &long, 0, 0) == 9, "9: the same, run-length");
    let rust = oracle::fresh(machine(&least), &long);
    r.fact(rust.tape(0).cells.len() == law::MAX_WORD + 33, "9: the Rust takes the word");
    r.fact(fresh(&least, &[1], 33) == 10, "10: symbol 1 with k 1");
    r.fact(panics(|| oracle::fresh(machine(&least), &[1])), "10: the Rust panics");
    r.fact(fresh(&least, &[], 31) == 11 && fresh(&least, &[], 32) == 0, "11: 31 cells");
    let two = one_tape(2, 1, &[]);
    r.fact(fresh_chain(&two, &[0, 1], 0, 0) == 11, "11: word 0 1 with no place on the right");
    let rust = rle::fresh(machine(&two), &[0, 1]).expect("one tape");
    r.fact(rle::runs(rust.tape().right()) == [(1, 1)], "11: the Rust's right stack has one run");
    r.fact(fresh_chain(&least, &[], (1 << 20) + 1, 0) == 11, "11: 1,048,577 places on the left");
    let leaves = one_tape(2, 2, &[(0, 0, 1, R, 1)]);
    let mut value = Value { state: 0, cur: 0, engine: [0, 0, 0, 0, ZERO, ZERO, ZERO] };
    let (s, t, mut out) = (leaves.sizes, &leaves.table, OUT);
    let lent: port::PlacesMut = (&mut [], &mut [], &mut [], &mut []);
    let result = port::chain_run(s, t, lent, &mut value, (NO_RULE, 1), &mut out);
    r.fact(result == 0 && out[..2] == [4, 0], "no left place: full before a step that leaves a symbol on the left");
    let rust = rle::fresh(machine(&leaves), &[]).expect("one tape").run(1);
    r.fact(rust.steps() == 1, "the Rust makes the step");
}

/// Refusal 7: the Rust has no packed words of several tapes, and runs without.
fn several_tapes(r: &mut Runner) {
    let several = walkers(&[R, R], 1);
    let (mut out, mut words) = (OUT, [0; 8]);
    r.fact(port::pack(several.sizes, &several.table, &mut words, &mut out) == 7, "7: packing two tapes");
    let [mut a, mut b] = [[0; 64]; 2];
    let (mut state, mut engine) = (0, [0; 16]);
    port::new(several.sizes, &several.table, &[], [&mut a, &mut b, &mut []], &mut state, &mut engine, &mut out);
    let cells: port::CellsMut = [&mut a, &mut b, &mut []];
    let (s, t) = (several.sizes, &several.table);
    let result = port::run_packed(s, t, &[], cells, &mut state, &mut engine, (NO_RULE, 1), &mut out);
    r.fact(result == 7, "7: a fast run on two tapes, with no words");
    r.fact(machine(&several).packed.is_empty(), "7: the Rust has no words of two tapes");
    let rust = oracle::fresh(machine(&several), &[]).run(1);
    r.fact(rust == Outcome::OutOfFuel { steps: 1 }, "7: and its run goes on without");
}

/// Refusals 12 and 18 of questions, and a window past i64.
fn questions(r: &mut Runner) {
    let least = least();
    let mut out = OUT;
    let engine = [0, 32, 16, 16, 16, 16, 0, 0, 0, 0, 0, 0, 0, 0, 0, 0];
    let cells: port::Cells = [&[0; 32], &[], &[]];
    let view = View { sizes: least.sizes, table: &least.table, cells, state: 0, engine: &engine };
    r.fact(view.count(1, &mut out) == 12, "12: a question for tape 1 of one");
    let rust = oracle::fresh(machine(&least), &[]);
    r.fact(panics(|| rust.tape(1).count_non_blank()), "12: the Rust panics");
    let two = one_tape(2, 1, &[]);
    let chain = [0, 0, 0, 1, ZERO, ZERO, ZERO];
    let places: port::Places = (&[], &[], &[1], &[1]);
    let view = ChainView { sizes: two.sizes, table: &two.table, places, state: 0, cur: 0, engine: &chain };
    r.fact(view.right(&mut [], &mut out) == 18, "18: one run on the right, no record");
    let mut runs = [Run { symbol: 9, len: 9 }];
    let result = view.right(&mut runs, &mut out);
    r.fact(result == 0 && (runs[0].symbol, runs[0].len) == (1, 1), "18: one record is enough");
    r.fact(port::pack(least.sizes, &least.table, &mut [], &mut out) == 18, "18: packing one entry into no word");
    r.fact(port::encode(&[7], &[], &[7], &mut [], &mut out) == 18, "18: encoding one glyph into no symbol");
    let (mut cells, mut engine) = ([0; 33], [0; 16]);
    let lent: port::CellsMut = [&mut cells, &mut [], &mut []];
    port::new(two.sizes, &two.table, &[1], lent, &mut 0, &mut engine, &mut out);
    let view = View { sizes: two.sizes, table: &two.table, cells: [&cells, &[], &[]], state: 0, engine: &engine };
    let result = view.find(0, i64::MAX - 15, L, &mut out);
    r.fact(result == 0 && out[..2] == [1, ZERO], "find_non_blank from 2^63 - 16 to the left: the port finds 0");
    let rust = oracle::fresh(machine(&two), &[1]).tape(0).find_non_blank(i64::MAX - 15, oracle::dir(L));
    r.fact(rust.is_none(), "the Rust finds none");
    let one = Symbol::new(1);
    let far = RunTape { cur: one, head: i64::MAX, ..RunTape::default() };
    let twice = far.window(i64::MAX, 2) == [one, one];
    r.fact(twice, "window past i64: the Rust's run-length tape gives the last cell again");
}

/// Packed words, and lookups of symbols that the machine lacks.
fn words(r: &mut Runner) {
    let mut out = OUT;
    port::packed_new(1, 0, L, 2, 1 << 63, &mut out);
    r.fact(out[0] == 3, "a row of 2^64: the port packs it as undefined");
    if cfg!(debug_assertions) {
        r.fact(panics(|| oracle::packed_new(Some((0, L, 2)), 1 << 63)), "a row of 2^64: the Rust panics");
    } else {
        let rust = oracle::packed_new(Some((0, L, 2)), 1 << 63);
        r.fact(rust == 0x2_0000, "a row of 2^64: the Rust without overflow checks packs row 0");
    }
    port::packed_new(1, 0, L, 1, 1 << 32, &mut out);
    let rust = oracle::packed_new(Some((0, L, 1)), 1 << 32);
    r.fact(out[0] == 3 && rust == 3, "a row of 2^32: both pack it as undefined");
    let two = one_tape(1, 2, &[(1, 0, 0, R, 0)]);
    let mut out = OUT;
    port::lookup(two.sizes, &two.table, 0, [0, 1, 0], &mut out);
    let rust = oracle::lookup(machine(&two), 0, [0, 1, 0]);
    r.fact(out[0] == 1 && rust.is_none(), "a symbol of a tape that the machine lacks counts in the port alone");
}

/// A timeline of the port over the plain engine, in its buffers.
struct Lone<'a> {
    subject: &'a Subject,
    cells: [u8; 32],
    store: Vec<u8>,
    state: u16,
    engine: law::Engine,
    times: Times,
    out: port::Out,
}

impl<'a> Lone<'a> {
    fn new(subject: &'a Subject) -> Self {
        let (cells, store) = ([0; 32], vec![0; 2 * (128 + 32)]);
        let mut lone = Self { subject, cells, store, state: 0, engine: [0; 16], times: [0; 4], out: OUT };
        let (s, t) = (subject.sizes, &subject.table);
        let cells: port::CellsMut = [&mut lone.cells, &mut [], &mut []];
        port::new(s, t, &[], cells, &mut lone.state, &mut lone.engine, &mut lone.out);
        lone
    }

    fn make(&mut self, set: (u64, u64)) -> u8 {
        let (s, t) = (self.subject.sizes, &self.subject.table);
        let cells: port::Cells = [&self.cells, &[], &[]];
        let value = (self.state, &self.engine);
        ffi::sim_new(s, t, cells, &mut self.store, value, &mut self.times, set, &mut self.out)
    }

    fn call(&mut self, which: u8, number: u64) -> u8 {
        let (s, t) = (self.subject.sizes, &self.subject.table);
        let cells: port::CellsMut = [&mut self.cells, &mut [], &mut []];
        let value = (&mut self.state, &mut self.engine);
        ffi::sim_call(s, t, cells, &mut self.store, value, &mut self.times, (which, number), &mut self.out)
    }
}

/// Refusals 14, 15 and 16, and a call to the present step after a full one.
fn timelines(r: &mut Runner) {
    let least = least();
    let mut lone = Lone::new(&least);
    r.fact(lone.make((0, 1)) == 14 && lone.make((1, 0)) == 14 && lone.make((1, 1)) == 0, "14: m 0, and interval 0");
    lone.times[2] = 0;
    r.fact(lone.call(0, 0) == 14 && lone.make((1, 1)) == 0, "14: a later value with count 0");
    lone.store.pop();
    r.fact(lone.make((1, 1)) == 15, "15: a store one byte under two slots");
    r.fact(lone.call(0, 0) == 15, "15: the same in a call");
    let listing = listing();
    let mut lone = Lone::new(&listing);
    r.fact(lone.make((1, 1)) == 0 && lone.call(0, 1) == 0, "one step of the listing's table");
    lone.store.fill(0);
    r.fact(lone.call(2, 1) == 16, "16: back to a slot of zeros");
    let mut rust = Timeline::new(oracle::fresh(machine(&listing), &[]));
    rust.forward(1);
    r.fact(rust.back(1) == Outcome::OutOfFuel { steps: 0 }, "16: the Rust has a checkpoint");
    let walk = alternating(R);
    let mut lone = Lone::new(&walk);
    r.fact(lone.make((1, 100)) == 0 && lone.call(0, 16) == 0 && lone.out[..2] == [4, 15], "full at 15 in 32 cells");
    r.fact(lone.call(0, 15) == 0 && lone.out[..2] == [1, 15], "a call to the present step after Full: out of fuel");
    let mut rust = Timeline::new(oracle::fresh(machine(&walk), &[]));
    r.fact(rust.seek(16) == Outcome::OutOfFuel { steps: 16 }, "the Rust goes on");
}

/// Steps and targets over 2^62: the Rust's run-length head does not pass 2^63 - 1 from 0.
fn far(r: &mut Runner) {
    let least = least();
    let mut lone = Lone::new(&least);
    r.fact(lone.make((1, 1)) == 0 && lone.call(0, (1 << 62) + 1) == 13, "13: seek to 2^62 + 1");
    let rust = Timeline::new(oracle::fresh(machine(&least), &[])).seek(u64::MAX);
    r.fact(rust.is_halted(), "13: the Rust halts at 0");
    let mut cells = [0; 32];
    let (mut state, mut engine, mut out) = (0, lone.engine, OUT);
    let lent: port::CellsMut = [&mut cells, &mut [], &mut []];
    let fuel = (NO_RULE, (1 << 62) + 1);
    let result = port::run(least.sizes, &least.table, lent, &mut state, &mut engine, fuel, &mut out);
    r.fact(result == 13, "13: fuel 2^62 + 1");
    for (way, head) in [(R, i64::MAX), (L, -i64::MAX)] {
        let walk = one_tape(1, 1, &[(0, 0, 0, way, 0)]);
        let mut rust = rle::fresh(machine(&walk), &[]).expect("one tape");
        rust.advance(1 << 63);
        let holds = rust.steps() == 1 << 63 && rust.tape().head() == head;
        r.fact(holds, "after 2^63 steps one way the Rust's head is at 2^63 - 1, or the negative of that");
    }
}
