//! Document 01's own cases of the plain engine.

use std::rc::Rc;

use crate::case::{Act, Asking, Begin, NO_RULE, Subject, Words};
use crate::generate::one_tape;
use crate::law::{Engine, MAX_STEPS};
use crate::port::{self, Out};
use crate::runner::Runner;
use crate::runs::{N, R, alternating, case_of, listing, walkers};
use crate::tally::OUT;

/// An engine of the port in buffers of its own, for facts that need no oracle.
pub struct Lone<'a> {
    subject: &'a Subject,
    cells: [Vec<u8>; 3],
    state: u16,
    engine: Engine,
    /// The result of the last call, 0 or a refusal's number, and what it gave back.
    pub result: u8,
    pub out: Out,
}

impl<'a> Lone<'a> {
    pub fn new(subject: &'a Subject, word: &[u8], room: usize) -> Self {
        let (mut cells, mut state, mut engine, mut out) = ([0; 3].map(|_| vec![7; room]), 0, [0; 16], OUT);
        let [a, b, c] = &mut cells;
        let result = port::new(subject.sizes, &subject.table, word, [a, b, c], &mut state, &mut engine, &mut out);
        Self { subject, cells, state, engine, result, out }
    }

    pub fn run(&mut self, rule: u64, fuel: u64) {
        let Self { subject: m, cells: [a, b, c], state, engine, out, .. } = self;
        self.result = port::run(m.sizes, &m.table, [a, b, c], state, engine, (rule, fuel), out);
    }

    pub fn fast(&mut self, rule: u64, fuel: u64) {
        let Self { subject: m, cells: [a, b, c], state, engine, out, .. } = self;
        self.result = port::run_packed(m.sizes, &m.table, &m.words, [a, b, c], state, engine, (rule, fuel), out);
    }
}

/// A case of document 01: what is run, and the first numbers of the answer (none for refusal 13).
struct DocumentCase<'a> {
    fact: &'a str,
    subject: &'a Rc<Subject>,
    word: &'a [u8],
    room: usize,
    rule: u64,
    fuel: u64,
    want: &'a [u64],
}

/// Document 01's own cases, as far as they concern the plain engine; the answers are written here.
pub fn cases(r: &mut Runner) {
    let walk = one_tape(2, 1, &[(0, 0, 1, R, 0)]);
    let stay = one_tape(2, 1, &[(0, 0, 0, N, 0)]);
    let once = one_tape(2, 1, &[(0, 0, 1, N, 0)]);
    let two = walkers(&[R, R], 1);
    let along = one_tape(2, 1, &[(0, 1, 1, R, 0)]);
    let (listing, alternating) = (listing(), alternating(R));
    let case = |fact, subject, rule, fuel, want| DocumentCase { fact, subject, word: &[], room: 64, rule, fuel, want };
    let none = NO_RULE;
    let mut all = vec![
        case("the listing's table, fuel 5: out of fuel at 5", &listing, none, 5, &[1, 5][..]),
        case("the listing's table, fuel 6: halted at 6", &listing, none, 6, &[0, 6, 2]),
        case("the listing's table, stop on state 1, fuel 5: stopped at 2", &listing, 1, 5, &[3, 2]),
        case("0 writes 1, moves R, stays, fuel 0: never at 0", &walk, none, 0, &[2, 0, 0, 1, 1]),
        case("0 writes 1, moves R, stays, fuel 2^62: never at 0", &walk, none, MAX_STEPS, &[2, 0, 0, 1, 1]),
        case("0 writes 1, moves R, stays, fuel 2^62 + 1: refused 13", &walk, none, MAX_STEPS + 1, &[]),
        case("blank rewritten, N, same state: stay loop at 0", &stay, none, 9, &[2, 0, 0, 0]),
        case("blank to 1, N, 1 undefined: halted at 1", &once, none, 9, &[0, 1, 0]),
        case("two tapes both moving R, same state: out of fuel at 10", &two, none, 10, &[1, 10]),
        case("two states alternating R: 64 cells go on", &alternating, none, 40, &[1, 40]),
    ];
    let word = &[1, 1, 1, 1];
    all.push(DocumentCase { word, ..case("word 1 1 1 1, 1 kept moving R: halted at 4", &along, none, 9, &[0, 4, 0]) });
    for room in 32..64 {
        let fact = "two states alternating R: full at 15 with 32 to 63 cells";
        all.push(DocumentCase { room, ..case(fact, &alternating, none, 1000, &[4, 15]) });
    }
    for DocumentCase { fact, subject, word, room, rule, fuel, want } in all {
        let holds = |r: &mut Runner, lone: Lone, act: Act| {
            let got = if lone.result == 0 { &lone.out[..want.len()] } else { &[] };
            let refused = if want.is_empty() { 13 } else { 0 };
            let holds = lone.result == refused && got == want;
            r.fact(holds, &format!("{fact}: result {}, out {:?}", lone.result, lone.out));
            let begin = Begin::Fresh { word: word.to_vec(), room: [room; 3] };
            r.case(&case_of(subject, begin, vec![Act::Check, Act::Pack { more: 0 }, act], Asking::All, 1));
        };
        let mut lone = Lone::new(subject, word, room);
        lone.run(rule, fuel);
        holds(r, lone, Act::Run { rule, fuel });
        if subject.sizes.tapes == 1 {
            let mut lone = Lone::new(subject, word, room);
            lone.fast(rule, fuel);
            holds(r, lone, Act::Fast { rule, fuel, words: Words::Right });
        }
    }
    let packed = one_tape(2, 2, &[(0, 0, 1, R, 1)]);
    r.fact(packed.words[0] == 8_590_000_385, "packed 1, R, next 1, stride 2 (the Rust's)");
    let (mut words, mut out) = ([0; 4], OUT);
    let result = port::pack(packed.sizes, &packed.table, &mut words, &mut out);
    r.fact(result == 0 && words == [8_590_000_385, 3, 3, 3], "packed 1, R, next 1, stride 2: 8,590,000,385");
}
