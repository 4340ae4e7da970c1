//! A case: everything that one list of calls is made from, as plain data that can be printed
//! and made smaller.

use std::fmt;
use std::rc::Rc;

use crate::compare;
use crate::law::{Engine, Refusal, Sizes, fields, tape_fields};
use crate::machine::Machine;
use crate::oracle;
use crate::tally::{Difference, Tally};

/// A table with what is known of it: the refusal that its check must give, and the oracle's
/// machine and packed words if there is none.
pub struct Subject {
    pub sizes: Sizes,
    pub table: Vec<u8>,
    pub refusal: Option<Refusal>,
    pub machine: Option<Rc<Machine>>,
    pub words: Vec<u64>,
}

impl Subject {
    pub fn new(sizes: Sizes, table: Vec<u8>) -> Rc<Self> {
        let refusal = sizes.table(&table);
        let machine = refusal.is_none().then(|| Rc::new(oracle::machine(&sizes, &table)));
        let words = machine.as_ref().map_or(Vec::new(), |m| oracle::words(m));
        Rc::new(Self { sizes, table, refusal, machine, words })
    }
}

/// Where the engine of a list of calls comes from.
#[derive(Clone)]
pub enum Begin {
    /// A fresh engine on a word, with cells buffers of these lengths, full of dirt.
    Fresh { word: Vec<u8>, room: [usize; 3] },
    /// A value set from outside, with whole cells buffers.
    Outside { state: u16, engine: Engine, cells: [Vec<u8>; 3] },
}

/// How the words lent to a fast run differ from the table's.
#[derive(Clone, Copy, Debug, PartialEq, Eq)]
pub enum Words {
    Right,
    /// The word at a place (modulo their number) is changed by an exclusive or.
    Changed(usize, u64),
    Shorter,
    Longer,
    Empty,
}

/// A question about a tape.
#[derive(Clone, Copy, Debug)]
pub enum Question {
    Get { tape: u64, at: i64 },
    NonBlank { tape: u64 },
    Count { tape: u64 },
    Window { tape: u64, from: i64, len: usize },
    Find { tape: u64, from: i64, dir: u8 },
}

/// One call.
#[derive(Clone, Copy, Debug)]
pub enum Act {
    Check,
    /// Packing into so many words more (or fewer) than there are entries.
    Pack {
        more: isize,
    },
    Step,
    Run {
        rule: u64,
        fuel: u64,
    },
    Fast {
        rule: u64,
        fuel: u64,
        words: Words,
    },
    /// The entry for a state and three symbols, whatever they are.
    Lookup {
        state: u16,
        read: [u8; 3],
    },
    Ask(Question),
}

/// How many questions follow each call.
#[derive(Clone, Copy, Debug, PartialEq, Eq)]
pub enum Asking {
    None,
    /// So many, taken at random.
    Some(u8),
    /// All that `gen.rs` knows.
    All,
}

/// One list of calls.
#[derive(Clone)]
pub struct Case {
    pub subject: Rc<Subject>,
    pub begin: Begin,
    pub acts: Vec<Act>,
    pub asking: Asking,
    /// Whether the list ends early once two runs in a row have made no step.
    pub cut: bool,
    /// The seed of everything that must not matter: dirt in buffers, fields of lacking tapes, the
    /// Rust's hint; and of the choice of questions.
    pub dirt: u64,
}

/// The rule that is none.
pub const NO_RULE: u64 = 65_536;

/// A case of either engine.
pub trait Trial: Clone + fmt::Display {
    /// Runs it on both sides.
    fn attempt(&self, tally: &mut Tally) -> Result<(), Difference>;

    /// Cases a little smaller.
    fn smaller(&self) -> Vec<Self>;
}

impl Trial for Case {
    fn attempt(&self, tally: &mut Tally) -> Result<(), Difference> {
        compare::run(self, tally)
    }

    fn smaller(&self) -> Vec<Self> {
        smaller(self)
    }
}

/// Prints a table, for a reader.
pub fn write_table(f: &mut fmt::Formatter<'_>, subject: &Subject) -> fmt::Result {
    let s = &subject.sizes;
    writeln!(f, "  tapes {} symbols {} states {} start {}", s.tapes, s.symbols, s.states, s.start)?;
    writeln!(f, "  table of {} bytes, expected refusal {:?}", subject.table.len(), subject.refusal)?;
    let mut shown = 0;
    for (i, entry) in subject.table.chunks(8).enumerate() {
        if entry.iter().any(|&b| b != 0) {
            shown += 1;
            if shown <= 64 {
                writeln!(f, "    entry {i}: {entry:?}{}", reading(subject, i, entry))?;
            }
        }
    }
    if shown > 64 {
        writeln!(f, "    and {} more", shown - 64)?;
    }
    Ok(())
}

/// Prints where an engine comes from.
pub fn write_begin(f: &mut fmt::Formatter<'_>, begin: &Begin) -> fmt::Result {
    match begin {
        Begin::Fresh { word, room } => writeln!(f, "  fresh engine, word {}, cells buffers {room:?}", Short(word)),
        Begin::Outside { state, engine, cells } => {
            writeln!(f, "  engine set from outside: state {state}, steps {}", engine[0])?;
            for (i, c) in cells.iter().enumerate() {
                let [len, origin, head, lowest, highest] = tape_fields(engine, i);
                writeln!(
                    f,
                    "    tape {i}: len {len} origin {origin} head {head} lowest {lowest} highest {highest}, \
                     buffer of {}: {}",
                    c.len(),
                    Short(c)
                )?;
            }
            Ok(())
        }
    }
}

impl fmt::Display for Case {
    fn fmt(&self, f: &mut fmt::Formatter<'_>) -> fmt::Result {
        write_table(f, &self.subject)?;
        write_begin(f, &self.begin)?;
        for (i, act) in self.acts.iter().enumerate() {
            writeln!(f, "  call {i}: {act:?}")?;
        }
        write!(f, "  questions after each call {:?}, dirt {:#x}", self.asking, self.dirt)
    }
}

/// What a defined entry says, for a reader.
fn reading(subject: &Subject, i: usize, e: &[u8]) -> String {
    let s = &subject.sizes;
    if subject.refusal.is_some_and(|r| r.number != 6) || !s.is_entry(e) {
        return String::from("  (off its layout)");
    }
    let (stride, k) = (s.stride(), s.symbols as usize);
    let moves = [e[6] % 3, e[6] / 3 % 3, e[6] / 9].map(|d| ["L", "R", "N"][usize::from(d)]);
    let tapes = s.tapes as usize;
    let reads: Vec<usize> = (0..tapes).map(|t| i % stride / k.pow(t as u32) % k).collect();
    format!(
        "  state {} reads {reads:?}: writes {:?}, moves {:?}, next {}",
        i / stride,
        &e[3..3 + tapes],
        &moves[..tapes],
        u16::from_le_bytes([e[1], e[2]])
    )
}

/// A list of bytes, cut where it is long.
pub struct Short<'a>(pub &'a [u8]);

impl fmt::Display for Short<'_> {
    fn fmt(&self, f: &mut fmt::Formatter<'_>) -> fmt::Result {
        match self.0 {
            long if long.len() > 256 => write!(f, "{:?}.. ({} in all)", &long[..256], long.len()),
            all => write!(f, "{all:?}"),
        }
    }
}

/// Makes a failing case smaller for as long as it fails, and gives the last message with it.
pub fn smallest<T: Trial>(case: &T, message: String, fails: impl Fn(&T) -> Option<String>) -> (T, String) {
    let (mut case, mut message) = (case.clone(), message);
    let end = std::time::Instant::now() + std::time::Duration::from_secs(20);
    'again: loop {
        for smaller in case.smaller() {
            if std::time::Instant::now() > end {
                break 'again;
            }
            if let Some(new) = fails(&smaller) {
                (case, message) = (smaller, new);
                continue 'again;
            }
        }
        break;
    }
    (case, message)
}

/// Lists with one call fewer, and with one call smaller.
pub fn smaller_lists<A: Clone>(acts: &[A], smaller: impl Fn(&A) -> Vec<A>) -> Vec<Vec<A>> {
    let with = |i: usize, by: Option<A>| [&acts[..i], by.as_slice(), &acts[i + 1..]].concat();
    let fewer = (0..acts.len()).rev().map(|i| with(i, None));
    let lesser = (0..acts.len()).flat_map(|i| smaller(&acts[i]).into_iter().map(move |act| (i, act)));
    fewer.chain(lesser.map(|(i, act)| with(i, Some(act)))).collect()
}

/// Cases a little smaller than `case`.
fn smaller(case: &Case) -> Vec<Case> {
    let lists = smaller_lists(&case.acts, |act| smaller_acts(*act));
    let mut all: Vec<Case> = lists.into_iter().map(|acts| Case { acts, ..case.clone() }).collect();
    if case.asking != Asking::None {
        all.push(Case { asking: Asking::None, ..case.clone() });
    }
    for begin in smaller_begins(&case.begin, case.subject.sizes.tapes) {
        all.push(Case { begin, ..case.clone() });
    }
    for subject in smaller_subjects(&case.subject) {
        all.push(Case { subject, ..case.clone() });
    }
    all
}

fn smaller_acts(act: Act) -> Vec<Act> {
    let fuels = |fuel: u64| {
        let tries = [0, 1, fuel / 2, fuel.saturating_sub(1)];
        tries.into_iter().filter(move |&f| f < fuel)
    };
    match act {
        Act::Run { rule, fuel } => {
            let rules = (rule != NO_RULE).then_some(Act::Run { rule: NO_RULE, fuel });
            fuels(fuel).map(|fuel| Act::Run { rule, fuel }).chain(rules).collect()
        }
        Act::Fast { rule, fuel, words } => {
            let rules = (rule != NO_RULE).then_some(Act::Fast { rule: NO_RULE, fuel, words });
            let plain = (words == Words::Right).then_some(Act::Run { rule, fuel });
            fuels(fuel).map(|fuel| Act::Fast { rule, fuel, words }).chain(rules).chain(plain).collect()
        }
        _ => Vec::new(),
    }
}

/// Engines a little smaller.
pub fn smaller_begins(begin: &Begin, tapes: u64) -> Vec<Begin> {
    let mut all = Vec::new();
    match begin {
        Begin::Fresh { word, room } => {
            for len in [0, word.len() / 2, word.len().saturating_sub(1)] {
                if len < word.len() {
                    all.push(Begin::Fresh { word: word[..len].to_vec(), room: *room });
                }
            }
            if word.len() <= 64 {
                for i in (0..word.len()).filter(|&i| word[i] != 0) {
                    let mut word = word.clone();
                    word[i] = 0;
                    all.push(Begin::Fresh { word, room: *room });
                }
            }
            for i in 0..3 {
                let least = match i {
                    _ if i as u64 >= tapes => 0,
                    0 => word.len() + 32,
                    _ => 32,
                };
                for len in [least, room[i] / 2, room[i].saturating_sub(1)] {
                    if len < room[i] {
                        let mut room = *room;
                        room[i] = len;
                        all.push(Begin::Fresh { word: word.clone(), room });
                    }
                }
            }
        }
        Begin::Outside { state, engine, cells } => {
            let mut other = |state: u16, engine: Engine, cells: [Vec<u8>; 3]| {
                all.push(Begin::Outside { state, engine, cells });
            };
            if *state > 0 {
                other(0, *engine, cells.clone());
            }
            if engine[0] > 0 {
                let mut engine = *engine;
                engine[0] = 0;
                other(*state, engine, cells.clone());
            }
            for i in 0..3 {
                if cells[i].iter().any(|&c| c != 0) {
                    let mut cells = cells.clone();
                    cells[i].fill(0);
                    other(*state, *engine, cells);
                }
                let at = fields(i);
                let needed = if (i as u64) < tapes { engine[at].min(cells[i].len() as u64) as usize } else { 0 };
                for len in [needed, (2 * needed).saturating_sub(1), 2 * needed] {
                    if len < cells[i].len() {
                        let mut cells = cells.clone();
                        cells[i].truncate(len);
                        other(*state, *engine, cells);
                    }
                }
                let set: Vec<usize> = (0..cells[i].len()).filter(|&j| cells[i][j] != 0).collect();
                for places in set.chunks(set.len().div_ceil(16).max(1)) {
                    let mut cells = cells.clone();
                    places.iter().for_each(|&j| cells[i][j] = 0);
                    other(*state, *engine, cells);
                }
                if engine[at..at + 5] != [32, 16, 16, 16, 16] {
                    let mut engine = *engine;
                    engine[at..at + 5].copy_from_slice(&[32, 16, 16, 16, 16]);
                    other(*state, engine, cells.clone());
                }
                for j in at + 1..at + 5 {
                    if engine[j] != engine[at + 2] {
                        let mut engine = *engine;
                        engine[j] = engine[at + 2];
                        other(*state, engine, cells.clone());
                    }
                }
            }
        }
    }
    all
}

/// Tables a little smaller.
pub fn smaller_subjects(subject: &Subject) -> Vec<Rc<Subject>> {
    let s = subject.sizes;
    let mut all = Vec::new();
    if s.start > 0 {
        all.push(Subject::new(Sizes { start: 0, ..s }, subject.table.clone()));
    }
    let entries = subject.table.len() / 8;
    if subject.refusal.is_none() && s.states > 1 && s.start + 1 < s.states {
        let rest = subject.table[..8 * (entries - s.stride())].to_vec();
        all.push(Subject::new(Sizes { states: s.states - 1, ..s }, rest));
    }
    // Entries made undefined: in blocks while there are many.
    let defined = |&i: &usize| subject.table[8 * i..8 * i + 8].iter().any(|&b| b != 0);
    let defined: Vec<usize> = (0..entries).filter(defined).collect();
    let block = if defined.len() > 64 { defined.len().div_ceil(32) } else { 1 };
    for entries in defined.chunks(block) {
        let mut table = subject.table.clone();
        entries.iter().for_each(|&i| table[8 * i..8 * i + 8].fill(0));
        all.push(Subject::new(s, table));
    }
    all
}
