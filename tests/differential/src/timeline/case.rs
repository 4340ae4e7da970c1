//! A list of calls on a timeline, as plain data that can be printed and made smaller.

use std::fmt;
use std::rc::Rc;

use super::kind::Kind;
use super::law::{Call, Times};
use super::odd::Odd;
use crate::case::{Subject, Trial, smaller_lists, smaller_subjects, write_table};
use crate::tally::{Difference, Tally};

/// One call, and what is wrong with it.
#[derive(Clone)]
pub struct Act {
    pub call: Call,
    pub odds: Vec<Odd>,
}

impl fmt::Debug for Act {
    fn fmt(&self, f: &mut fmt::Formatter<'_>) -> fmt::Result {
        write!(f, "{:?}", self.call)?;
        if self.odds.is_empty() { Ok(()) } else { write!(f, " with {:?}", self.odds) }
    }
}

impl From<Call> for Act {
    fn from(call: Call) -> Self {
        Self { call, odds: Vec::new() }
    }
}

/// One list of calls.
#[derive(Clone)]
pub struct Case<K: Kind> {
    pub subject: Rc<Subject>,
    pub begin: K::Begin,
    /// m and the first interval.
    pub set: (u64, u64),
    /// Bytes of the store beyond m + 1 slots; fewer, if negative.
    pub more: isize,
    /// What the timeline's value holds before it is made; calls are made with it if it is not.
    pub times: Times,
    pub acts: Vec<Act>,
    /// Whether each call is held against a run of the Rust's engine from the start.
    pub anew: bool,
    /// Whether every recorded slot is visited after each call, on a copy.
    pub probe: bool,
    /// The seed of the dirt.
    pub dirt: u64,
}

impl<K: Kind> Case<K> {
    /// A case of the usual form.
    pub fn new(subject: &Rc<Subject>, begin: K::Begin, set: (u64, u64), calls: &[Call]) -> Self {
        Self {
            subject: Rc::clone(subject),
            begin,
            set,
            more: 0,
            times: [7; 4],
            acts: calls.iter().map(|&call| call.into()).collect(),
            anew: true,
            probe: false,
            dirt: 1,
        }
    }
}

impl<K: Kind> fmt::Display for Case<K> {
    fn fmt(&self, f: &mut fmt::Formatter<'_>) -> fmt::Result {
        write_table(f, &self.subject)?;
        K::write(f, &self.begin)?;
        let Case { set: (most, every), more, times, .. } = self;
        writeln!(
            f,
            "  timeline with m {most}, interval {every}; store of m + 1 slots and {more} bytes; before {times:?}"
        )?;
        for (i, act) in self.acts.iter().enumerate() {
            writeln!(f, "  call {i}: {act:?}")?;
        }
        write!(
            f,
            "  held against runs from the start {}, slots visited {}, dirt {:#x}",
            self.anew, self.probe, self.dirt
        )
    }
}

impl<K: Kind> Trial for Case<K> {
    fn attempt(&self, tally: &mut Tally) -> Result<(), Difference> {
        super::compare::run(self, tally)
    }

    fn smaller(&self) -> Vec<Self> {
        let lists = smaller_lists(&self.acts, smaller_acts);
        let mut all: Vec<Self> = lists.into_iter().map(|acts| Case { acts, ..self.clone() }).collect();
        let (most, every) = self.set;
        for set in [(1, every), (most / 2, every), (most, 1), (most, every / 2)] {
            if set != self.set && set.0 > 0 && set.1 > 0 {
                all.push(Case { set, ..self.clone() });
            }
        }
        if self.more > 0 {
            all.push(Case { more: 0, ..self.clone() });
        }
        all.extend(K::smaller(&self.subject, &self.begin).into_iter().map(|begin| Case { begin, ..self.clone() }));
        all.extend(smaller_subjects(&self.subject).into_iter().map(|subject| Case { subject, ..self.clone() }));
        all
    }
}

fn smaller_acts(act: &Act) -> Vec<Act> {
    let mut all = Vec::new();
    for i in 0..act.odds.len() {
        let mut act = act.clone();
        act.odds.remove(i);
        all.push(act);
    }
    let (_, number) = act.call.numbers();
    for n in [0, 1, number / 2, number.saturating_sub(1)] {
        if n < number {
            all.push(Act { call: act.call.with(n), odds: act.odds.clone() });
        }
    }
    all
}
