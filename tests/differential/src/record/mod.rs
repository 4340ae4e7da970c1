//! A fixed list of the Rust's answers, which the port's program `replay` compares with its own where no Rust is at hand:
//! a file for each kind of case, a line for each case. Nothing here asks the port.

pub mod chain;
pub mod encoder;
pub mod plain;
pub mod timeline;

use std::fmt::{Display, Write};
use std::rc::Rc;

use crate::case::Subject;
use crate::generate::{self, Rng, standard, three_tapes};
use crate::law::{MAX_STEPS, Sizes};
use crate::outcome::Outcome;
use crate::runs::{SMALL_TABLES, small_table};
use crate::{oracle, timeline::runs};

/// A kind of case: the name of its file, how many lines it gets, the longest line, and a case if the random one lies in
/// the ground that both sides share.
pub type Kind = (&'static str, usize, usize, fn(&mut Rng) -> Option<Line>);

/// All kinds, in the order in which `replay` reads them.
pub const KINDS: [Kind; 12] = [
    ("run", 400, 260, plain::run),
    ("stop", 250, 260, plain::stop),
    ("step", 250, 260, plain::step),
    ("fast", 300, 200, plain::fast),
    ("pack", 150, 200, plain::pack),
    ("ask", 200, 260, plain::ask),
    ("timeline", 120, 500, timeline::cells),
    ("chain", 400, 180, chain::run),
    ("chain_stop", 250, 180, chain::stop),
    ("chain_ask", 200, 240, chain::ask),
    ("chain_timeline", 120, 500, timeline::runs),
    ("encode", 400, 3000, encoder::encode),
];

/// How many entries a table may have, as `replay` lends it.
const ENTRIES: u64 = 512;
/// How many numbers a line may have, as `replay` reads it.
const NUMBERS: usize = 1024;
/// The most steps that a call takes here.
pub const REACH: u64 = 20_000;

/// Decimal numbers, parted by single spaces.
#[derive(Default)]
pub struct Line(String);

impl Line {
    pub fn put(&mut self, number: impl Display) {
        let space = if self.0.is_empty() { "" } else { " " };
        write!(self.0, "{space}{number}").expect("a string takes all");
    }

    pub fn puts(&mut self, numbers: impl IntoIterator<Item = impl Display>) {
        numbers.into_iter().for_each(|number| self.put(number));
    }

    /// How many there are, and these.
    pub fn list<T: Display>(&mut self, numbers: &[T]) {
        self.put(numbers.len());
        self.puts(numbers);
    }

    /// The machine's numbers and the defined entries of its table: how many, and of each its number, the next state,
    /// and the write and the move of each tape.
    fn machine(&mut self, subject: &Subject) {
        let Sizes { tapes, symbols, states, start } = subject.sizes;
        self.puts([tapes, symbols, states, start]);
        let defined: Vec<_> = subject.table.chunks(8).enumerate().filter(|(_, e)| e[0] == 1).collect();
        self.put(defined.len());
        for (number, e) in defined {
            self.put(number);
            self.put(u16::from_le_bytes([e[1], e[2]]));
            let moves = [e[6] % 3, e[6] / 3 % 3, e[6] / 9];
            (0..tapes as usize).for_each(|i| self.puts([e[3 + i], moves[i]]));
        }
    }

    /// An answer: the outcome's number and its values, 0 for one that it lacks.
    fn answer(&mut self, outcome: Outcome) {
        self.puts(oracle::answer(outcome).map(|value| value.unwrap_or(0)));
    }

    /// Each run of equal cells: symbol and length.
    fn runs(&mut self, cells: &[u8]) {
        cells.chunk_by(|a, b| a == b).for_each(|run| {
            self.put(run[0]);
            self.put(run.len());
        });
    }
}

/// A machine with a word of its symbols, of one tape where `several` does not hold.
fn ground(rng: &mut Rng, several: bool) -> Option<(Rc<Subject>, Vec<u8>)> {
    let (subject, mut word) = match rng.below(8) {
        0 | 1 => {
            let word = (0..rng.below(9)).map(|_| rng.below(2) as u8).collect();
            (small_table(rng.below(SMALL_TABLES as u64) as usize), word)
        }
        2 => generate::sweeper(rng),
        3 => (known(rng), Vec::new()),
        i => {
            let sizes = if several && i < 6 { wide(rng) } else { generate::sizes(rng, 24) };
            let word = generate::word(rng, sizes.symbols);
            (Subject::new(sizes, generate::table(rng, &sizes)), word)
        }
    };
    let Sizes { tapes, symbols, .. } = subject.sizes;
    word.truncate(24);
    let shared = word.iter().all(|&a| u64::from(a) < symbols) && subject.sizes.entries() as u64 <= ENTRIES;
    (shared && (several || tapes == 1)).then_some((subject, word))
}

/// Sizes of a small machine of several tapes.
fn wide(rng: &mut Rng) -> Sizes {
    loop {
        let sizes = generate::sizes(rng, 16);
        if sizes.tapes > 1 && sizes.symbols > 1 {
            return sizes;
        }
    }
}

/// A machine with a name of its own.
fn known(rng: &mut Rng) -> Rc<Subject> {
    let mut all: Vec<Rc<Subject>> = runs::machines().into_iter().map(|(subject, _)| subject).collect();
    all.push(standard("1RB2LA1RA1RA_1LB1LA3RB1RZ"));
    all.push(standard("1RB1LC_1RC1RB_1RD0LE_1LA1LD_1RZ0LA"));
    all.push(three_tapes());
    all.swap_remove(rng.below(all.len() as u64) as usize)
}

/// Fuel for the run that comes before the call of a case.
fn ahead(rng: &mut Rng) -> u64 {
    let most = rng.pick(&[0, 0, 3, 20, 300, 2000]);
    rng.between(0, most)
}

/// Fuel within the limit of an engine with these steps.
fn fuel(rng: &mut Rng, steps: u64) -> Option<u64> {
    let fuel = generate::fuel(rng, steps);
    (fuel <= MAX_STEPS - steps).then_some(fuel)
}

/// The lines of one kind, each one once.
pub fn lines((name, count, longest, case): &Kind, seed: u64) -> String {
    let mut lines: Vec<String> = Vec::new();
    for i in 0.. {
        if lines.len() == *count {
            break;
        }
        let Some(Line(line)) = case(&mut Rng::of(seed, name, i)) else {
            continue;
        };
        if line.len() <= *longest && line.split(' ').count() <= NUMBERS && !lines.contains(&line) {
            lines.push(line);
        }
    }
    lines.iter().map(|line| line.clone() + "\n").collect()
}
