//! A case of the run-length engine, as plain data that can be printed and made smaller.

use std::fmt;
use std::rc::Rc;

use super::law::{HEAD, HIGHEST, LEFT, LOWEST, MACROS, RIGHT, STEPS, Value, ZERO};
use crate::case::{Asking, NO_RULE, Short, Subject, Trial, smaller_lists, smaller_subjects, write_table};
use crate::tally::{Difference, Tally};

/// One side's places: symbols and lengths.
pub type Side = (Vec<u8>, Vec<u64>);

/// Where the engine of a list of calls comes from.
#[derive(Clone)]
pub enum Begin {
    /// A fresh engine on a word, with so many symbols and lengths on the left and on the right, full
    /// of dirt.
    Fresh { word: Vec<u8>, left: (usize, usize), right: (usize, usize) },
    /// A value set from outside, with all places of both sides.
    Outside { value: Value, left: Side, right: Side },
}

/// A question about the tape.
#[derive(Clone, Copy, Debug)]
pub enum Question {
    Get { at: i64 },
    NonBlank,
    Count,
    Window { from: i64, len: usize },
}

/// One call.
#[derive(Clone, Copy, Debug)]
pub enum Act {
    Run {
        rule: u64,
        fuel: u64,
    },
    Ask(Question),
    /// The runs of a side, into so many records more (or fewer) than it has.
    Side {
        right: bool,
        more: isize,
    },
}

/// A run without a stop rule.
pub fn run(fuel: u64) -> Act {
    Act::Run { rule: NO_RULE, fuel }
}

/// One list of calls.
#[derive(Clone)]
pub struct Case {
    pub subject: Rc<Subject>,
    pub begin: Begin,
    pub acts: Vec<Act>,
    pub asking: Asking,
    /// Whether the plain engine of the port runs beside it, and must hold the same configuration.
    pub plain: bool,
    /// The seed of the dirt and of the choice of questions.
    pub dirt: u64,
}

/// Prints where an engine comes from.
pub fn write_begin(f: &mut fmt::Formatter<'_>, begin: &Begin) -> fmt::Result {
    match begin {
        Begin::Fresh { word, left, right } => {
            let word = Short(word);
            writeln!(f, "  fresh run-length engine, word {word}, symbols and lengths {left:?} {right:?}")
        }
        Begin::Outside { value: Value { state, cur, engine }, left, right } => {
            let [steps, macros, lefts, rights, ..] = engine;
            let at = [HEAD, LOWEST, HIGHEST].map(|i| i128::from(engine[i]) - i128::from(ZERO));
            writeln!(
                f,
                "  run-length engine set from outside: state {state}, reads {cur}, steps {steps}, macro steps {macros}"
            )?;
            writeln!(f, "    head, lowest, highest {at:?}")?;
            for (name, count, (symbols, lengths)) in [("left", lefts, left), ("right", rights, right)] {
                let shown = lengths.len().min(64);
                write!(f, "    {name}: {count} live, symbols {}, ", Short(symbols))?;
                writeln!(f, "{} lengths {:?}", lengths.len(), &lengths[..shown])?;
            }
            Ok(())
        }
    }
}

impl fmt::Display for Case {
    fn fmt(&self, f: &mut fmt::Formatter<'_>) -> fmt::Result {
        write_table(f, &self.subject)?;
        write_begin(f, &self.begin)?;
        for (i, act) in self.acts.iter().enumerate() {
            writeln!(f, "  call {i}: {act:?}")?;
        }
        write!(
            f,
            "  questions after each call {:?}, plain engine beside {}, dirt {:#x}",
            self.asking, self.plain, self.dirt
        )
    }
}

impl Trial for Case {
    fn attempt(&self, tally: &mut Tally) -> Result<(), Difference> {
        super::compare::run(self, tally)
    }

    fn smaller(&self) -> Vec<Self> {
        let lists = smaller_lists(&self.acts, |act| smaller_acts(*act));
        let mut all: Vec<Case> = lists.into_iter().map(|acts| Case { acts, ..self.clone() }).collect();
        if self.asking != Asking::None {
            all.push(Case { asking: Asking::None, ..self.clone() });
        }
        all.extend(smaller_begins(&self.begin).into_iter().map(|begin| Case { begin, ..self.clone() }));
        all.extend(smaller_subjects(&self.subject).into_iter().map(|subject| Case { subject, ..self.clone() }));
        all
    }
}

fn smaller_acts(act: Act) -> Vec<Act> {
    let Act::Run { rule, fuel } = act else {
        return Vec::new();
    };
    let fuels = [0, 1, fuel / 2, fuel.saturating_sub(1)].into_iter().filter(|&f| f < fuel);
    let plain = (rule != NO_RULE).then_some(run(fuel));
    fuels.map(|fuel| Act::Run { rule, fuel }).chain(plain).collect()
}

/// Engines a little smaller.
pub fn smaller_begins(begin: &Begin) -> Vec<Begin> {
    match begin {
        Begin::Fresh { word, left, right } => smaller_words(word)
            .into_iter()
            .map(|word| Begin::Fresh { word, left: *left, right: *right })
            .chain(smaller_rooms(*left).map(|left| Begin::Fresh { word: word.clone(), left, right: *right }))
            .chain(smaller_rooms(*right).map(|right| Begin::Fresh { word: word.clone(), left: *left, right }))
            .collect(),
        Begin::Outside { value, left, right } => {
            let mut all = Vec::new();
            for value in smaller_values(value) {
                all.push(Begin::Outside { value, left: left.clone(), right: right.clone() });
            }
            for (left, value) in smaller_sides(left, value, LEFT) {
                all.push(Begin::Outside { value, left, right: right.clone() });
            }
            for (right, value) in smaller_sides(right, value, RIGHT) {
                all.push(Begin::Outside { value, left: left.clone(), right });
            }
            all
        }
    }
}

fn smaller_words(word: &[u8]) -> Vec<Vec<u8>> {
    let cut = [0, word.len() / 2, word.len().saturating_sub(1)].into_iter().filter(|&n| n < word.len());
    let mut all: Vec<Vec<u8>> = cut.map(|n| word[..n].to_vec()).collect();
    for i in (0..word.len().min(64)).filter(|&i| word[i] != 0) {
        let mut word = word.to_vec();
        word[i] = 0;
        all.push(word);
    }
    all
}

fn smaller_rooms((symbols, lengths): (usize, usize)) -> impl Iterator<Item = (usize, usize)> {
    let both = symbols.min(lengths);
    let less = [(0, 0), (both / 2, both / 2), (both.saturating_sub(1), both.saturating_sub(1)), (both, both)];
    less.into_iter().filter(move |r| r.0 + r.1 < symbols + lengths)
}

fn smaller_values(value: &Value) -> Vec<Value> {
    let mut all = Vec::new();
    let home = [(STEPS, 0), (MACROS, 0), (HEAD, ZERO), (LOWEST, ZERO), (HIGHEST, ZERO)];
    for (i, to) in home {
        if value.engine[i] != to {
            let mut value = *value;
            value.engine[i] = to;
            all.push(value);
        }
    }
    if value.engine[HEAD..] != [ZERO; 3] {
        let mut value = *value;
        value.engine[HEAD..].fill(ZERO);
        all.push(value);
    }
    if value.state > 0 {
        all.push(Value { state: 0, ..*value });
    }
    if value.cur > 0 {
        all.push(Value { cur: 0, ..*value });
    }
    all
}

/// Fewer live runs, shorter runs, fewer places.
fn smaller_sides((symbols, lengths): &Side, value: &Value, count: usize) -> Vec<(Side, Value)> {
    let mut all = Vec::new();
    let live = value.engine[count];
    for n in [0, live / 2, live.saturating_sub(1)] {
        if n < live {
            let mut value = *value;
            value.engine[count] = n;
            all.push(((symbols.clone(), lengths.clone()), value));
        }
    }
    for i in 0..lengths.len().min(64) {
        if lengths[i] > 1 {
            let mut lengths = lengths.clone();
            lengths[i] = 1;
            all.push(((symbols.clone(), lengths), *value));
        }
    }
    for (s, l) in smaller_rooms((symbols.len(), lengths.len())) {
        all.push(((symbols[..s].to_vec(), lengths[..l].to_vec()), *value));
    }
    all
}
