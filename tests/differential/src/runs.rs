//! Runs of the plain engine on machines of all sorts.

use std::rc::Rc;

use crate::case::{Act, Asking, Begin, Case, NO_RULE, Subject, Words};
use crate::document_cases::Lone;
use crate::generate::{self, Rng, entry, one_tape};
use crate::law::{MAX_STEPS, Sizes};
use crate::runner::Runner;

/// A case of the usual form.
pub fn case_of(subject: &Rc<Subject>, begin: Begin, acts: Vec<Act>, asking: Asking, dirt: u64) -> Case {
    Case { subject: Rc::clone(subject), begin, acts, asking, cut: false, dirt }
}

pub fn run(fuel: u64) -> Act {
    Act::Run { rule: NO_RULE, fuel }
}

pub fn fast(fuel: u64) -> Act {
    Act::Fast { rule: NO_RULE, fuel, words: Words::Right }
}

pub const L: u8 = 0;
pub const R: u8 = 1;
pub const N: u8 = 2;

/// The table of document 01's listing.
pub fn listing() -> Rc<Subject> {
    one_tape(2, 3, &[(0, 0, 1, R, 1), (0, 1, 1, L, 1), (1, 0, 1, L, 0), (1, 1, 1, R, 2)])
}

/// Two states that alternate in one direction over blanks.
pub fn alternating(step: u8) -> Rc<Subject> {
    one_tape(2, 2, &[(0, 0, 0, step, 1), (1, 0, 0, step, 0)])
}

/// A machine of several tapes, each moving its own way over blanks, in one state or in two.
pub fn walkers(steps: &[u8], states: u16) -> Rc<Subject> {
    let sizes = Sizes { tapes: steps.len() as u64, symbols: 2, states: u64::from(states), start: 0 };
    let mut moves = [N; 3];
    moves[..steps.len()].copy_from_slice(steps);
    let mut table = vec![0; 8 * sizes.entries()];
    for q in 0..states {
        let at = 8 * usize::from(q) * sizes.stride();
        table[at..at + 8].copy_from_slice(&entry((q + 1) % states, [0; 3], moves));
    }
    Subject::new(sizes, table)
}

/// How many tables of 2 states and 2 symbols there are: 13 choices for each of four entries.
pub const SMALL_TABLES: usize = 13_usize.pow(4);

/// The table of that number.
pub fn small_table(number: usize) -> Rc<Subject> {
    let sizes = Sizes { tapes: 1, symbols: 2, states: 2, start: 0 };
    let choice = |i: usize| match i {
        0 => [0; 8],
        i => {
            let i = i - 1;
            entry((i / 6) as u16, [(i % 2) as u8, 0, 0], [(i / 2 % 3) as u8, N, N])
        }
    };
    let mut table = Vec::with_capacity(32);
    for i in 0..4 {
        table.extend(choice(number / 13_usize.pow(i) % 13));
    }
    Subject::new(sizes, table)
}

/// Hands `each` every table of 2 states and 2 symbols with its number, and words with theirs: four for every table; more,
/// taken at random, at a larger scale.
pub fn on_small_tables(r: &mut Runner, mut each: impl FnMut(&mut Runner, (usize, &Rc<Subject>), (usize, &[u8]))) {
    let words: [&[u8]; 4] = [&[], &[1], &[0, 1], &[1, 1, 0, 1]];
    for number in 0..SMALL_TABLES {
        let subject = small_table(number);
        for i in 0..words.len() * r.scale as usize {
            let mut rng = r.rng();
            let word = match words.get(i) {
                Some(word) => word.to_vec(),
                None => (0..rng.between(1, 12)).map(|_| rng.below(2) as u8).collect(),
            };
            each(r, (number, &subject), (i, &word));
        }
    }
}

/// All tables of 2 states and 2 symbols.
pub fn small(r: &mut Runner) {
    let rooms = [63, 64, 140, 128, 40, 300];
    let stopping = |words: Option<Words>| {
        let act = move |(rule, fuel)| match words {
            None => Act::Run { rule, fuel },
            Some(words) => Act::Fast { rule, fuel, words },
        };
        [(0, 50), (0, 1), (0, 50), (1, 50), (1, 0), (1, 50), (2, 3), (0, 50)].map(act).to_vec()
    };
    let plans: Vec<(bool, Vec<Act>)> = vec![
        (true, [0, 1, 2, 3, 5, 8, 40, 200].map(run).to_vec()),
        (true, [0, 1, 1, 4, 7, 30, 300].map(fast).to_vec()),
        (true, vec![Act::Step; 24]),
        (false, stopping(None)),
        (false, stopping(Some(Words::Right))),
        (false, vec![Act::Step, run(7), Act::Step, fast(5), Act::Step, Act::Step, fast(100), run(100)]),
    ];
    let first = [Act::Check, Act::Pack { more: 0 }, Act::Pack { more: 1 }, Act::Pack { more: -1 }];
    on_small_tables(r, |r, (number, subject), (i, word)| {
        for (j, (cut, acts)) in plans.iter().enumerate() {
            let mut rng = r.rng();
            let room = rooms[(number + i + j) % rooms.len()];
            let mut acts = acts.clone();
            if i == 0 && j == 0 {
                acts.splice(0..0, first);
            }
            let begin = Begin::Fresh { word: word.to_vec(), room: [room, rng.below(3) as usize, 0] };
            let asking = if rng.once_in(24) { Asking::All } else { Asking::Some(4) };
            r.case(&Case { subject: Rc::clone(subject), begin, acts, asking, cut: *cut, dirt: rng.next() });
        }
    });
}

/// The largest number of entries of random case `i`: mostly small ones, since every call reads the
/// whole table.
pub fn entries(i: u64) -> u64 {
    match i {
        _ if i % 500 == 499 => 600_000,
        _ if i % 20 == 19 => 20_000,
        _ => 600,
    }
}

pub fn random(r: &mut Runner) {
    for i in 0..25_000 * r.scale {
        let mut rng = r.rng();
        let sizes = generate::sizes(&mut rng, entries(i));
        let subject = Subject::new(sizes, generate::table(&mut rng, &sizes));
        let word = generate::word(&mut rng, sizes.symbols);
        let room = generate::room(&mut rng, sizes.tapes, word.len());
        let count = if sizes.entries() > 20_000 { 6 } else { rng.between(2, 24) };
        let acts = generate::acts(&mut rng, &sizes, count, 0);
        let asking = match i % 10 {
            0 if sizes.entries() < 1000 => Asking::All,
            _ => Asking::Some(4),
        };
        r.case(&case_of(&subject, Begin::Fresh { word, room }, acts, asking, rng.next()));
    }
}

pub fn sweeps(r: &mut Runner) {
    for _ in 0..30_000 * r.scale {
        let mut rng = r.rng();
        let (subject, word) = generate::sweeper(&mut rng);
        let begin = match rng.below(4) {
            0 => generate::fitting(&mut rng, &subject.sizes),
            _ => Begin::Fresh { word, room: [rng.pick(&[200, 600, 3000]), 0, 0] },
        };
        let piece = |rng: &mut Rng| {
            let fuel = rng.pick(&[1, 10, 100, 400, 2000]);
            let fuel = rng.between(0, fuel);
            let rule = generate::rule(rng, subject.sizes.states);
            match rng.below(5) {
                0 => Act::Step,
                1 => Act::Run { rule, fuel },
                2 => Act::Fast { rule, fuel, words: Words::Right },
                3 => run(fuel),
                _ => fast(fuel),
            }
        };
        let acts = (0..rng.between(1, 12)).map(|_| piece(&mut rng)).collect();
        r.case(&case_of(&subject, begin, acts, Asking::Some(2), rng.next()));
    }
}

/// A machine that is run for so many steps, and the number of steps at which it halts, if it does.
struct Known {
    subject: Rc<Subject>,
    word: Vec<u8>,
    steps: u64,
    halts: Option<u64>,
}

pub fn known(r: &mut Runner) {
    let beaver = |text, steps, halts| Known { subject: generate::standard(text), word: vec![], steps, halts };
    let three = |word, steps| Known { subject: generate::three_tapes(), word, steps, halts: None };
    let machines = [
        beaver("1RB1LB_1LA1RZ", 100, Some(6)),
        beaver("1RB1RZ_1LB0RC_1LC1LA", 100, Some(21)),
        beaver("1RB1LB_1LA0LC_1RZ1LD_1RD0RA", 1000, Some(107)),
        beaver("1RB2LB1RZ_2LA2RB1LB", 1000, Some(38)),
        beaver("1RB2LA1RA1RA_1LB1LA3RB1RZ", 4_000_000, Some(3_932_964)),
        beaver("1RB1LC_1RC1RB_1RD0LE_1LA1LD_1RZ0LA", 1_500_000, None),
        three(vec![1; 60], 300_000),
        three(vec![], 3000),
    ];
    for Known { subject, word, steps, halts } in &machines {
        for round in 0..2 + 2 * r.scale {
            let mut rng = r.rng();
            let mut acts = Vec::new();
            let mut left = *steps;
            let most = rng.pick(&[steps / 3, steps / 20 + 1, steps / 2]);
            while left > 0 {
                let fuel = rng.between(0, most).min(left);
                left -= fuel;
                acts.push(if subject.sizes.tapes == 1 && rng.once_in(2) { fast(fuel) } else { run(fuel) });
                if rng.once_in(3) && left > 0 {
                    left -= 1;
                    acts.push(Act::Step);
                }
            }
            let room = match round {
                0 => [1 << 16, 1 << 12, 1 << 12],
                _ => [0; 3].map(|_| rng.between(32 + word.len() as u64, 9000) as usize),
            };
            let begin = Begin::Fresh { word: word.clone(), room };
            let asking = if *steps > 10_000 { Asking::Some(2) } else { Asking::All };
            r.case(&case_of(subject, begin, acts, asking, rng.next()));
        }
        if let Some(halts) = halts {
            let mut lone = Lone::new(subject, word, 1 << 16);
            lone.run(NO_RULE, MAX_STEPS);
            let holds = lone.result == 0 && lone.out[..2] == [0, *halts];
            r.fact(holds, &format!("a busy beaver halts at {halts}: {:?}", lone.out));
        }
    }
}

pub fn outside(r: &mut Runner) {
    for i in 0..40_000 * r.scale {
        let mut rng = r.rng();
        let sizes = generate::sizes(&mut rng, entries(i).min(20_000));
        let subject = Subject::new(sizes, generate::table(&mut rng, &sizes));
        let begin = generate::fitting(&mut rng, &sizes);
        let Begin::Outside { engine, .. } = &begin else { unreachable!("made so") };
        let count = rng.between(1, 10);
        let acts = generate::acts(&mut rng, &sizes, count, engine[0]);
        let asking = if i % 10 == 0 { Asking::All } else { Asking::Some(4) };
        r.case(&case_of(&subject, begin, acts, asking, rng.next()));
    }
}

pub fn unfit(r: &mut Runner) {
    for i in 0..20_000 * r.scale {
        let mut rng = r.rng();
        let sizes = generate::sizes(&mut rng, entries(i).min(600));
        let subject = Subject::new(sizes, generate::table(&mut rng, &sizes));
        let mut begin = generate::fitting(&mut rng, &sizes);
        generate::break_value(&mut rng, &sizes, &mut begin);
        let Begin::Outside { engine, .. } = &begin else { unreachable!("made so") };
        let mut acts = vec![Act::Step, run(generate::fuel(&mut rng, engine[0])), fast(3)];
        acts.extend(generate::acts(&mut rng, &sizes, 3, engine[0]));
        r.case(&case_of(&subject, begin, acts, Asking::Some(3), rng.next()));
    }
}

/// The entries of a table of 2 MB.
pub const MOST_ENTRIES: u64 = 1 << 18;

/// Tables of any shape, of up to 2 MB.
pub fn wide(r: &mut Runner) {
    for _ in 0..300 * r.scale {
        wide_list(r, MOST_ENTRIES);
    }
}

/// A list on a table with at most so many entries.
pub fn wide_list(r: &mut Runner, most: u64) {
    let mut rng = r.rng();
    let tapes = rng.between(1, 3);
    let sizes = generate::wide_sizes(&mut rng, tapes, most);
    let subject = Subject::new(sizes, generate::table(&mut rng, &sizes));
    let begin = match rng.below(4) {
        0 => generate::fitting(&mut rng, &sizes),
        1 => generate::long_value(&mut rng, &sizes, 5000),
        _ => {
            let word = generate::word(&mut rng, sizes.symbols);
            let room = generate::room(&mut rng, tapes, word.len());
            Begin::Fresh { word, room }
        }
    };
    let count = rng.between(3, 7);
    let mut acts = generate::acts(&mut rng, &sizes, count, 0);
    acts.extend([0; 3].map(|_| generate::lookup(&mut rng, &sizes)));
    acts.extend(rng.once_in(4).then_some(Act::Pack { more: 0 }));
    r.case(&case_of(&subject, begin, acts, Asking::Some(1), rng.next()));
}

/// Engine values set from outside with thousands of cells.
pub fn long(r: &mut Runner) {
    for _ in 0..2500 * r.scale {
        let mut rng = r.rng();
        let sizes = generate::sizes(&mut rng, 300);
        let subject = Subject::new(sizes, generate::table(&mut rng, &sizes));
        let begin = generate::long_value(&mut rng, &sizes, 20_000);
        let Begin::Outside { engine, .. } = &begin else { unreachable!("made so") };
        let count = rng.between(1, 8);
        let acts = generate::acts(&mut rng, &sizes, count, engine[0]);
        r.case(&case_of(&subject, begin, acts, Asking::Some(3), rng.next()));
    }
}

/// Every entry of tables of few entries, by every state and every symbol near the machine's, and random ones.
pub fn lookups(r: &mut Runner) {
    for i in 0..600 * r.scale {
        let mut rng = r.rng();
        let sizes = generate::sizes(&mut rng, if i % 20 == 19 { 20_000 } else { 40 });
        let subject = Subject::new(sizes, generate::table(&mut rng, &sizes));
        let near = |tape: u64| if tape < sizes.tapes { sizes.symbols.min(4) + 1 } else { 2 };
        let mut acts = Vec::new();
        for state in 0..sizes.states.min(12) + 1 {
            for place in 0..near(0) * near(1) * near(2) {
                let read = [place % near(0), place / near(0) % near(1), place / near(0) / near(1)].map(|a| a as u8);
                acts.push(Act::Lookup { state: state as u16, read });
            }
        }
        acts.truncate(400);
        acts.extend([0; 40].map(|_| generate::lookup(&mut rng, &sizes)));
        let begin = Begin::Fresh { word: vec![], room: [32; 3] };
        r.case(&case_of(&subject, begin, acts, Asking::None, rng.next()));
    }
}
