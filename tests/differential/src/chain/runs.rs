//! The kinds of runs of the run-length engine.

use std::rc::Rc;

use super::case::{Act, Begin, Case, Question, run};
use super::generate;
use super::law::{HEAD, HIGHEST, LEFT, LOWEST, MACROS, RIGHT, SLACK, STEPS, Side, Value, ZERO, lent, runs_of};
use crate::case::{Asking, NO_RULE, Subject};
use crate::generate::{self as plain, Rng, one_tape, standard};
use crate::law::{MAX_STEPS, MAX_WORD, Sizes};
use crate::port::{self, Out};
use crate::runner::Runner;
use crate::runs::{L, MOST_ENTRIES, N, R, entries, listing, on_small_tables, walkers};
use crate::tally::OUT;

/// A case of the usual form.
fn case_of(subject: &Rc<Subject>, begin: Begin, acts: Vec<Act>, asking: Asking, dirt: u64) -> Case {
    Case { subject: Rc::clone(subject), begin, acts, asking, plain: false, dirt }
}

/// A fresh engine with as many places on both sides.
fn fresh(word: &[u8], left: usize, right: usize) -> Begin {
    Begin::Fresh { word: word.to_vec(), left: (left, left), right: (right, right) }
}

/// An engine of the port in places of its own, for facts that need no oracle.
struct Lone<'a> {
    subject: &'a Subject,
    symbols: [Vec<u8>; 2],
    lengths: [Vec<u64>; 2],
    value: Value,
    result: u8,
    out: Out,
}

impl<'a> Lone<'a> {
    fn new(subject: &'a Subject, word: &[u8], places: usize) -> Self {
        let value = Value { state: 9, cur: 9, engine: [9; 7] };
        let mut lone = Lone {
            subject,
            symbols: [vec![7; places], vec![7; places]],
            lengths: [vec![7; places], vec![7; places]],
            value,
            result: 0,
            out: OUT,
        };
        let ([ls, rs], [ll, rl]) = (&mut lone.symbols, &mut lone.lengths);
        let (s, t) = (subject.sizes, &subject.table);
        lone.result = port::chain_new(s, t, word, (ls, ll, rs, rl), &mut lone.value, &mut lone.out);
        lone
    }

    fn run(&mut self, rule: u64, fuel: u64) {
        let ([ls, rs], [ll, rl]) = (&mut self.symbols, &mut self.lengths);
        let (s, t) = (self.subject.sizes, &self.subject.table);
        self.result = port::chain_run(s, t, (ls, ll, rs, rl), &mut self.value, (rule, fuel), &mut self.out);
    }

    fn runs(&self, side: usize) -> Vec<(u8, u64)> {
        let count = self.value.engine[LEFT + side] as usize;
        (0..count).map(|i| (self.symbols[side][i], self.lengths[side][i])).collect()
    }
}

/// A case of document 01: what is run with which rule and fuel, and the first numbers of the answer (none for
/// refusal 13).
type DocumentCase<'a> = (&'a str, &'a Rc<Subject>, u64, u64, &'a [u64]);

/// Document 01's own cases; the answers are written here.
pub fn cases(r: &mut Runner) {
    let walk = one_tape(2, 1, &[(0, 0, 1, R, 0)]);
    let stay = one_tape(2, 1, &[(0, 0, 0, N, 0)]);
    let once = one_tape(2, 1, &[(0, 0, 1, N, 0)]);
    let listing = listing();
    let cases: [DocumentCase; 8] = [
        ("the listing's table, fuel 5: out of fuel at 5", &listing, NO_RULE, 5, &[1, 5]),
        ("the listing's table, fuel 6: halted at 6", &listing, NO_RULE, 6, &[0, 6, 2]),
        ("the listing's table, stop on state 1, fuel 5: stopped at 1", &listing, 1, 5, &[3, 1]),
        ("0 writes 1, moves R, stays, fuel 0: never at 0", &walk, NO_RULE, 0, &[2, 0, 0, 1, 1]),
        ("0 writes 1, moves R, stays, fuel 2^62: never at 0", &walk, NO_RULE, MAX_STEPS, &[2, 0, 0, 1, 1]),
        ("0 writes 1, moves R, stays, fuel 2^62 + 1: refused 13", &walk, NO_RULE, MAX_STEPS + 1, &[]),
        ("blank rewritten, N, same state: stay loop at 0", &stay, NO_RULE, 9, &[2, 0, 0, 0]),
        ("blank to 1, N, 1 undefined: halted at 1", &once, NO_RULE, 9, &[0, 1, 0]),
    ];
    for (fact, subject, rule, fuel, want) in cases {
        let mut lone = Lone::new(subject, &[], 8);
        lone.run(rule, fuel);
        let refused = if want.is_empty() { 13 } else { 0 };
        let holds = lone.result == refused && (want.is_empty() || lone.out[..want.len()] == *want);
        r.fact(holds, &format!("{fact}: result {}, out {:?}", lone.result, lone.out));
        r.case(&case_of(subject, fresh(&[], 8, 8), vec![Act::Run { rule, fuel }; 3], Asking::All, 1));
    }
    document_words(r);
}

fn document_words(r: &mut Runner) {
    let along = one_tape(2, 1, &[(0, 1, 1, R, 0)]);
    let lone = Lone::new(&along, &[1, 1, 0], 4);
    r.fact(lone.runs(1) == [(1, 1)] && lone.value.cur == 1, "word 1 1 0: right stack one run, symbol 1, length 1");
    let lone = Lone::new(&along, &[0, 0, 0], 4);
    r.fact(lone.runs(0).is_empty() && lone.runs(1).is_empty(), "word 0 0 0: both stacks empty");
    let mut lone = Lone::new(&along, &[1; 4], 4);
    lone.run(NO_RULE, 9);
    let holds = lone.out[..3] == [0, 4, 0] && lone.value.engine[MACROS] == 1;
    r.fact(holds, "word 1 1 1 1, 1 kept moving R: halted at 4, one macro step");
    let mut lone = Lone::new(&along, &[1; 4], 4);
    lone.run(NO_RULE, 2);
    lone.run(NO_RULE, 2);
    let holds = lone.out[..2] == [0, 4] && lone.value.engine[MACROS] == 2;
    r.fact(holds, "word 1 1 1 1, fuel 2 twice: two macro steps");
    let two = Lone::new(&walkers(&[R, R], 1), &[], 4).result;
    r.fact(two == 8, &format!("two tapes: refused 8, not {two}"));
    for word in [&[1, 1, 0][..], &[0, 0, 0], &[1; 4]] {
        let begin = fresh(word, 4, 4);
        r.case(&case_of(&along, begin, vec![run(0), run(2), run(2), run(9)], Asking::All, 1));
    }
}

/// All tables of 2 states and 2 symbols.
pub fn small(r: &mut Runner) {
    let stops = [(0, 50), (0, 1), (0, 50), (1, 50), (1, 0), (NO_RULE, 1), (1, 50), (2, 3), (0, 50)];
    let plans: [Vec<Act>; 3] = [
        [0, 1, 2, 3, 5, 8, 40, 200].map(run).to_vec(),
        vec![run(400), run(1), run(50)],
        stops.map(|(rule, fuel)| Act::Run { rule, fuel }).to_vec(),
    ];
    on_small_tables(r, |r, (_, subject), (i, word)| {
        for (j, acts) in plans.iter().enumerate() {
            let mut rng = r.rng();
            let few = runs_of(word) + rng.below(4) as usize;
            let places = if (i + j) % 2 == 0 { 40 } else { few };
            let asking = if rng.once_in(24) { Asking::All } else { Asking::Some(3) };
            let begin = fresh(word, places, places);
            let case = case_of(subject, begin, acts.clone(), asking, rng.next());
            r.case(&Case { plain: j < 2, ..case });
        }
    });
}

pub fn random(r: &mut Runner) {
    for i in 0..30_000 * r.scale {
        let mut rng = r.rng();
        let (subject, word) = if rng.once_in(3) {
            plain::sweeper(&mut rng)
        } else {
            let sizes = generate::sizes(&mut rng, entries(i), 40);
            let word = plain::word(&mut rng, sizes.symbols);
            (Subject::new(sizes, plain::table(&mut rng, &sizes)), word)
        };
        let count = if subject.sizes.entries() > 20_000 { 4 } else { rng.between(2, 16) };
        let acts = generate::acts(&mut rng, &subject.sizes, count, 0);
        let asking = if i % 10 == 0 && subject.table.len() < 8000 { Asking::All } else { Asking::Some(3) };
        let begin = generate::fresh(&mut rng, word);
        r.case(&Case { plain: i % 2 == 0, ..case_of(&subject, begin, acts, asking, rng.next()) });
    }
}

/// Tables of any shape, of up to 2 MB, and words of thousands of symbols.
pub fn wide(r: &mut Runner) {
    for _ in 0..300 * r.scale {
        wide_list(r, MOST_ENTRIES);
    }
    for _ in 0..1500 * r.scale {
        let mut rng = r.rng();
        let sizes = generate::sizes(&mut rng, 300, 60);
        let subject = Subject::new(sizes, plain::table(&mut rng, &sizes));
        let acts = generate::acts(&mut rng, &sizes, 5, 0);
        let begin = generate::long(&mut rng, &sizes);
        r.case(&case_of(&subject, begin, acts, Asking::Some(3), rng.next()));
    }
}

/// A list on a table with at most so many entries.
pub fn wide_list(r: &mut Runner, most: u64) {
    let mut rng = r.rng();
    let tapes = if rng.once_in(30) { rng.between(2, 3) } else { 1 };
    let sizes = plain::wide_sizes(&mut rng, tapes, most);
    let subject = Subject::new(sizes, plain::table(&mut rng, &sizes));
    let begin = match rng.below(4) {
        0 => generate::fitting(&mut rng, &sizes),
        1 => generate::long(&mut rng, &sizes),
        _ => {
            let word = plain::word(&mut rng, sizes.symbols);
            generate::fresh(&mut rng, word)
        }
    };
    let count = rng.between(3, 7);
    let acts = generate::acts(&mut rng, &sizes, count, 0);
    let case = case_of(&subject, begin, acts, Asking::Some(1), rng.next());
    r.case(&Case { plain: rng.once_in(2), ..case });
}

/// Machines in pieces of random fuel.
pub fn known(r: &mut Runner) {
    let machines = [
        ("1RB1LB_1LA1RZ", 100, Some(6)),
        ("1RB1RZ_1LB0RC_1LC1LA", 100, Some(21)),
        ("1RB1LB_1LA0LC_1RZ1LD_1RD0RA", 1000, Some(107)),
        ("1RB2LB1RZ_2LA2RB1LB", 1000, Some(38)),
        ("1RB2LA1RA1RA_1LB1LA3RB1RZ", 4_000_000, Some(3_932_964)),
        ("1RB1LC_1RC1RB_1RD0LE_1LA1LD_1RZ0LA", 48_000_000, Some(47_176_870)),
    ];
    for (text, steps, halts) in machines {
        let subject = standard(text);
        for round in 0..2 + 2 * r.scale {
            let mut rng = r.rng();
            let (mut acts, mut left) = (Vec::new(), steps);
            let most = rng.pick(&[steps / 3, steps / 20 + 1, steps / 2]);
            while left > 0 {
                let fuel = rng.between(0, most).min(left);
                left -= fuel;
                acts.push(run(fuel));
            }
            let places = if round == 0 { 20_000 } else { rng.between(1, 60) as usize };
            let case = case_of(&subject, fresh(&[], places, places), acts, Asking::Some(3), rng.next());
            r.case(&Case { plain: steps < 10_000, ..case });
        }
        if let Some(halts) = halts {
            let mut lone = Lone::new(&subject, &[], 20_000);
            lone.run(NO_RULE, MAX_STEPS);
            r.fact(lone.out[..2] == [0, halts], &format!("a busy beaver halts at {halts}: {:?}", lone.out));
        }
    }
}

pub fn outside(r: &mut Runner) {
    for i in 0..40_000 * r.scale {
        let mut rng = r.rng();
        let sizes = generate::sizes(&mut rng, entries(i).min(20_000), 100);
        let subject = Subject::new(sizes, plain::table(&mut rng, &sizes));
        let begin = generate::fitting(&mut rng, &sizes);
        let Begin::Outside { value, .. } = &begin else { unreachable!("made so") };
        let count = rng.between(1, 8);
        let acts = generate::acts(&mut rng, &sizes, count, value.engine[STEPS]);
        let asking = if i % 10 == 0 { Asking::All } else { Asking::Some(3) };
        r.case(&case_of(&subject, begin, acts, asking, rng.next()));
    }
}

/// Every number of places from none, on either side, for machines that need runs on both.
pub fn places(r: &mut Runner) {
    let texts = ["1RB1LB_1LA1RZ", "1RB1RZ_1LB0RC_1LC1LA", "1RB1LB_1LA0LC_1RZ1LD_1RD0RA", "1RB2LB1RZ_2LA2RB1LB"];
    let alternating = |step: u8| one_tape(2, 2, &[(0, 0, 1, step, 1), (1, 0, 0, step, 0)]);
    let mut subjects: Vec<Rc<Subject>> = texts.into_iter().map(standard).collect();
    subjects.extend([listing(), alternating(R), alternating(L), one_tape(2, 2, &[(0, 0, 0, R, 1), (1, 0, 0, R, 0)])]);
    for subject in &subjects {
        for left in 0..8 {
            for right in 0..8 {
                let dirt = r.rng().next();
                let acts = vec![run(3), run(0), run(1), run(400), run(1), run(MAX_STEPS - 1000)];
                r.case(&case_of(subject, fresh(&[], left, right), acts, Asking::Some(4), dirt));
                let acts = vec![run(1); 40];
                r.case(&case_of(subject, fresh(&[1, 1, 0, 1], left, right), acts, Asking::None, dirt));
            }
        }
    }
    for i in 0..20_000 * r.scale {
        let mut rng = r.rng();
        let sizes = generate::sizes(&mut rng, entries(i).min(600), 0);
        let subject = Subject::new(sizes, plain::table(&mut rng, &sizes));
        let word: Vec<u8> = (0..rng.below(8)).map(|_| rng.below(sizes.symbols) as u8).collect();
        let few = |rng: &mut Rng, least: usize| (least + rng.below(4) as usize, least + rng.below(4) as usize);
        let (left, right) = (few(&mut rng, 0), few(&mut rng, runs_of(&word)));
        let acts = generate::acts(&mut rng, &sizes, 8, 0);
        r.case(&case_of(&subject, Begin::Fresh { word, left, right }, acts, Asking::Some(2), rng.next()));
    }
}

/// A value that fits, with two runs on each side, that each clause below breaks alone.
fn sound(steps: u64) -> Begin {
    let value = Value { state: 1, cur: 1, engine: [steps, steps / 2, 2, 2, ZERO + 1, ZERO - 2, ZERO + 3] };
    let side = || (vec![1, 2, 9, 9], vec![3, 4, 0, 0]);
    Begin::Outside { value, left: side(), right: side() }
}

/// The clauses of what fits, each with one way to break it.
fn clauses(steps: u64) -> Vec<(&'static str, Begin)> {
    let mut all = Vec::new();
    let mut number = |name: &'static str, change: &[(usize, u64)]| {
        let mut begin = sound(steps);
        if let Begin::Outside { value, .. } = &mut begin {
            change.iter().for_each(|&(i, to)| value.engine[i] = to);
        }
        all.push((name, begin));
    };
    number("steps over 2^62", &[(STEPS, MAX_STEPS + 1)]);
    number("macro steps over steps", &[(MACROS, steps + 1)]);
    number("more runs left than places", &[(LEFT, 5)]);
    number("more runs right than places", &[(RIGHT, 5)]);
    number("very many runs left", &[(LEFT, (1 << 32) + 2)]);
    number("very many runs right", &[(RIGHT, u64::MAX)]);
    number("lowest above the head", &[(LOWEST, ZERO + 2)]);
    number("highest below the head", &[(HIGHEST, ZERO)]);
    number("lowest too low", &[(LOWEST, ZERO - steps - 1)]);
    number("highest too high", &[(HIGHEST, ZERO + steps + 1)]);
    number("head too high", &[(HEAD, ZERO + steps + 1), (HIGHEST, ZERO + steps + 1)]);
    number("head too low", &[(HEAD, ZERO - steps - 1), (LOWEST, ZERO - steps - 1)]);
    for (i, state, cur) in [(0, 3, 1), (1, 1, 3)] {
        let mut begin = sound(steps);
        if let Begin::Outside { value, .. } = &mut begin {
            (value.state, value.cur) = (state, cur);
        }
        all.push((["state not below n", "symbol under the head not below k"][i], begin));
    }
    for right in [false, true] {
        all.extend(broken_stacks(steps, right));
    }
    all
}

/// The clauses about one side's stack.
fn broken_stacks(steps: u64, on_right: bool) -> Vec<(&'static str, Begin)> {
    let far = steps + SLACK;
    // Where the head must be so that only the sum, or only the distance, is too large.
    let (home, edge) = if on_right { (ZERO - steps, ZERO + steps) } else { (ZERO + steps, ZERO - steps) };
    let middle = ZERO + 1;
    let broken: [(&str, [u8; 2], [u64; 2], u64); 9] = [
        ("a run of no cells", [1, 2], [3, 0], middle),
        ("a bottom run of no cells", [1, 2], [0, 3], middle),
        ("a blank bottom run", [0, 2], [3, 4], middle),
        ("equal neighbours", [2, 2], [3, 4], middle),
        ("a symbol not below k", [1, 3], [3, 4], middle),
        ("a bottom symbol not below k", [255, 1], [3, 4], middle),
        ("too many cells", [1, 2], [far, 1], home),
        ("the furthest cell too far", [1, 2], [SLACK, 1], edge),
        ("a sum over 64 bits", [1, 2], [1 << 63, 1 << 63], middle),
    ];
    let case = |(name, symbols, lengths, head): (&'static str, [u8; 2], [u64; 2], u64)| {
        let mut begin = sound(steps);
        if let Begin::Outside { value, left, right } = &mut begin {
            let side = if on_right { right } else { left };
            side.0[..2].copy_from_slice(&symbols);
            side.1[..2].copy_from_slice(&lengths);
            value.engine[HEAD] = head;
            value.engine[LOWEST] = value.engine[LOWEST].min(head);
            value.engine[HIGHEST] = value.engine[HIGHEST].max(head);
        }
        (name, begin)
    };
    broken.map(case).to_vec()
}

pub fn unfit(r: &mut Runner) {
    let sizes = Sizes { tapes: 1, symbols: 3, states: 3, start: 0 };
    let mut rng = r.rng();
    let subject = Subject::new(sizes, plain::table(&mut rng, &sizes));
    for steps in [3, 4, 50, 1 << 40, MAX_STEPS - 1] {
        let first = ("nothing", sound(steps));
        for (i, (name, begin)) in std::iter::once(first).chain(clauses(steps)).enumerate() {
            let Begin::Outside { value, left, right } = &begin else { unreachable!("made so") };
            let refusal = lent(&sizes, value, Side(&left.0, &left.1), Side(&right.0, &right.1));
            let holds = refusal.map(|r| r.number) == (i > 0).then_some(12);
            r.fact(holds, &format!("at {steps} steps, broken: {name}, but the law says {refusal:?}"));
            let acts = vec![run(0), run(1), run(u64::MAX), Act::Run { rule: 1, fuel: 0 }];
            r.case(&case_of(&subject, begin, acts, Asking::All, 3));
        }
    }
    for i in 0..30_000 * r.scale {
        let mut rng = r.rng();
        let sizes = generate::sizes(&mut rng, entries(i).min(600), 60);
        let subject = Subject::new(sizes, plain::table(&mut rng, &sizes));
        let mut begin = generate::fitting(&mut rng, &sizes);
        generate::break_value(&mut rng, &sizes, &mut begin);
        let Begin::Outside { value, .. } = &begin else { unreachable!("made so") };
        let acts = generate::acts(&mut rng, &sizes, 3, value.engine[STEPS]);
        r.case(&case_of(&subject, begin, acts, Asking::Some(3), rng.next()));
    }
}

/// One of each operation.
fn every_operation(rng: &mut Rng) -> Vec<Act> {
    let asks = [Question::Get { at: 0 }, Question::NonBlank, Question::Count, Question::Window { from: -1, len: 4 }];
    let mut acts: Vec<Act> = asks.map(Act::Ask).to_vec();
    acts.extend([false, true].map(|right| Act::Side { right, more: rng.pick(&[-1, 0, 2]) }));
    acts.push(run(plain::fuel(rng, 0)));
    acts
}

/// Tables with changed bytes or wrong sizes, and several tapes, with later faults besides: the
/// first refusal is given.
pub fn damage(r: &mut Runner) {
    for i in 0..12_000 * r.scale {
        let mut rng = r.rng();
        let good = generate::sizes(&mut rng, entries(i).min(2000), 3);
        let mut table = plain::table(&mut rng, &good);
        let mut sizes = good;
        match rng.below(8) {
            0 => sizes.tapes = rng.pick(&[0, 2, 3, 4, u64::MAX]),
            1 => sizes.symbols = rng.pick(&[0, 257, u64::MAX, good.symbols + 1]),
            2 => sizes.states = rng.pick(&[0, 65_537, u64::MAX, good.states + 1]),
            3 => sizes.start = rng.pick(&[good.states, u64::MAX]),
            4 => table.truncate(rng.below(table.len() as u64) as usize),
            5 | 6 => {
                let at = rng.below(table.len() as u64) as usize;
                table[at] = table[at].wrapping_add(rng.pick(&[1, 2, 128]));
            }
            _ => {}
        }
        let subject = Subject::new(sizes, table);
        let mut begin = match rng.below(2) {
            0 => generate::fitting(&mut rng, &good),
            _ => {
                let word = plain::word(&mut rng, good.symbols);
                generate::fresh(&mut rng, word)
            }
        };
        if rng.once_in(2) {
            generate::break_value(&mut rng, &good, &mut begin);
        }
        let acts = every_operation(&mut rng);
        r.case(&case_of(&subject, begin, acts, Asking::None, rng.next()));
    }
}

pub fn limits(r: &mut Runner) {
    places_at_limits(r);
    fuel_at_limits(r);
    words_at_limits(r);
}

/// Run places up to 2^20 and beyond, in one of the two slices and in both.
fn places_at_limits(r: &mut Runner) {
    let most = SLACK as usize;
    for subject in [listing(), walkers(&[R, R], 1)] {
        for (symbols, lengths) in [(most, most), (most + 1, most), (most, most + 9), (most + 1, most + 1)] {
            for right in [false, true] {
                let (mut l, mut rr) = ((40, 40), (40, 40));
                *(if right { &mut rr } else { &mut l }) = (symbols, lengths);
                let dirt = r.rng().next();
                let begin = Begin::Fresh { word: vec![1, 0, 1], left: l, right: rr };
                r.case(&case_of(&subject, begin, vec![run(3)], Asking::Some(1), dirt));
                // From outside: 11 comes before 12.
                for state in [0, 9] {
                    let side = |(s, n): (usize, usize)| (vec![1; s], vec![1; n]);
                    let value = Value { state, cur: 0, engine: [5, 2, 0, 1, ZERO, ZERO, ZERO] };
                    let begin = Begin::Outside { value, left: side(l), right: side(rr) };
                    r.case(&case_of(&subject, begin, vec![run(3), run(u64::MAX)], Asking::Some(1), dirt));
                }
            }
        }
    }
}

/// Fuel up to 2^62 and beyond it, steps up to 2^62 and beyond, long runs.
fn fuel_at_limits(r: &mut Runner) {
    let walk = one_tape(2, 1, &[(0, 0, 1, R, 0)]);
    let along = one_tape(2, 1, &[(0, 1, 1, R, 0)]);
    let back = one_tape(3, 2, &[(0, 1, 2, L, 0), (0, 0, 1, R, 1), (1, 2, 1, R, 1), (1, 0, 1, L, 0)]);
    for subject in [&walk, &along, &back, &listing()] {
        for fuel in [0, 1, MAX_STEPS - 1, MAX_STEPS, MAX_STEPS + 1, 1 << 63, u64::MAX] {
            let dirt = r.rng().next();
            r.case(&case_of(subject, fresh(&[1, 1, 1], 9, 9), vec![run(fuel), run(fuel)], Asking::Some(3), dirt));
        }
        for below in [0, 1, 2, 5, 1000] {
            for steps in [MAX_STEPS - below, MAX_STEPS + below, u64::MAX - below, (1 << 63) + below] {
                for fuel in [0, 1, below, below + 1, u64::MAX - steps, (u64::MAX - steps).wrapping_add(1), u64::MAX] {
                    let value = Value { state: 0, cur: 1, engine: [steps, 0, 1, 1, ZERO, ZERO, ZERO] };
                    let long = MAX_STEPS - 1000;
                    let begin =
                        Begin::Outside { value, left: (vec![1, 0], vec![long, 0]), right: (vec![1, 0], vec![long, 0]) };
                    let dirt = r.rng().next();
                    r.case(&case_of(subject, begin, vec![run(fuel), run(1), run(0)], Asking::All, dirt));
                }
            }
        }
    }
}

/// Words of the greatest length, symbols just outside the alphabet, one place too few.
fn words_at_limits(r: &mut Runner) {
    let subject = one_tape(2, 2, &[(0, 0, 1, R, 1), (1, 0, 0, R, 0), (0, 1, 0, R, 1), (1, 1, 1, L, 0)]);
    for len in [MAX_WORD - 1, MAX_WORD, MAX_WORD + 1] {
        for kind in 0..3 {
            let mut rng = r.rng();
            let word: Vec<u8> = (0..len).map(|i| [rng.below(2), i as u64 % 2, 1][kind] as u8).collect();
            let runs = runs_of(&word);
            for right in [runs.saturating_sub(1), runs, runs + 1] {
                r.case(&case_of(&subject, fresh(&word, 9, right), vec![run(1000)], Asking::Some(1), rng.next()));
            }
        }
    }
    for symbols in [1, 2, 3, 200, 255] {
        let sizes = Sizes { tapes: 1, symbols, states: 1, start: 0 };
        let subject = Subject::new(sizes, vec![0; 8 * sizes.entries()]);
        for places in [&[0][..], &[9], &[4], &[3, 5], &[9, 0]] {
            for (symbol, right) in [(symbols, 20), (255, 20), (symbols, 0)] {
                let mut word = vec![0; 10];
                places.iter().for_each(|&i| word[i] = symbol as u8);
                let dirt = r.rng().next();
                r.case(&case_of(&subject, fresh(&word, 0, right), vec![run(3)], Asking::None, dirt));
            }
        }
    }
    // Too long, with a wrong symbol and no places besides; several tapes before that.
    for subject in [&subject, &walkers(&[R, R], 1)] {
        for len in [MAX_WORD + 1, MAX_WORD] {
            r.case(&case_of(subject, fresh(&vec![9; len], 0, 0), vec![], Asking::None, 5));
        }
    }
}
