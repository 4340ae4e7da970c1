//! The kinds of runs, and what runs them.

use std::panic::{AssertUnwindSafe, catch_unwind};
use std::process::exit;
use std::sync::atomic::{AtomicU64, Ordering};

use crate::case::{Trial, smallest};
use crate::chain::runs as chain;
use crate::generate::Rng;
use crate::tally::Tally;
use crate::timeline::facts;
use crate::timeline::kind::{OnCells, OnRuns};
use crate::timeline::runs as timeline;
use crate::{damage, document_cases, encoder, large, limits, named, packed, runs};

/// A kind of run: its name, what it does, and how.
pub type Kind = (&'static str, &'static str, fn(&mut Runner));

/// All kinds, in the order in which they run.
pub const KINDS: [Kind; 45] = [
    ("cases", "document 01's own cases, with the answers written there", document_cases::cases),
    ("named", "the smallest input of each named departure, on both sides", named::departures),
    ("packed", "every part of a packed word, on any word; the word of any action, with any stride", packed::words),
    ("lookup", "entries for every state and symbols, also ones that the machine lacks", runs::lookups),
    ("damage", "tables with changed bytes, wrong sizes, changed words", damage::damage),
    ("limits", "the sizes, words, buffers, fuels and steps at their limits", limits::limits),
    ("unfit", "engine values set from outside that do not fit", runs::unfit),
    ("outside", "engine values set from outside that fit", runs::outside),
    ("long", "engine values set from outside with thousands of cells", runs::long),
    ("wide", "tables of any shape to 2 MB, one to three tapes", runs::wide),
    ("sweeps", "random machines that sweep over blanks, the never test at almost every step", runs::sweeps),
    ("known", "busy beavers and a three-tape machine, in pieces of random fuel", runs::known),
    ("random", "random machines, words, buffers, fuels and stop rules", runs::random),
    ("small", "all tables of 2 states and 2 symbols", runs::small),
    ("encode", "the encoder: words over glyphs and flags, all small ones and random ones", encoder::words),
    ("c-cases", "run-length engine: document 01's own cases", chain::cases),
    ("c-damage", "run-length engine: tables with changed bytes, wrong sizes, several tapes", chain::damage),
    ("c-limits", "run-length engine: words, places, fuels and steps at their limits", chain::limits),
    ("c-unfit", "run-length engine: every clause of what fits broken, alone and at random", chain::unfit),
    ("c-outer", "run-length engine: values set from outside that fit", chain::outside),
    ("c-places", "run-length engine: few run places", chain::places),
    ("c-wide", "run-length engine: tables of any shape to 2 MB, words of thousands of symbols", chain::wide),
    ("c-known", "run-length engine: busy beavers, in pieces of random fuel", chain::known),
    ("c-random", "run-length engine: random machines; the plain engine beside it", chain::random),
    ("c-small", "run-length engine: all tables of 2 states and 2 symbols; the plain engine beside it", chain::small),
    ("t-cases", "timeline: document 01's own cases", facts::cells),
    ("t-small", "timeline: all tables of 2 states and 2 symbols, other settings", timeline::small::<OnCells>),
    ("t-random", "timeline: random machines, settings and calls", timeline::random::<OnCells>),
    ("t-rust", "timeline: the Rust's settings, against its Timeline", timeline::rust::<OnCells>),
    ("t-any", "timeline: every m, first intervals of any size", timeline::any::<OnCells>),
    ("t-wide", "timeline: tables of any shape to 2 MB", timeline::wide::<OnCells>),
    ("t-long", "timeline: the Rust's settings, lists that thin several times", timeline::long::<OnCells>),
    ("t-far", "timeline: targets to 2^62 and beyond", timeline::far::<OnCells>),
    ("t-refuse", "timeline: damaged values, slots, stores, tables, alone and together", timeline::refuse::<OnCells>),
    ("t-space", "timeline: few cells", timeline::space::<OnCells>),
    ("tc-cases", "timeline on runs: document 01's own cases", facts::runs),
    ("tc-small", "timeline on runs: all tables of 2 states and 2 symbols, other settings", timeline::small::<OnRuns>),
    ("tc-rando", "timeline on runs: random machines, settings and calls", timeline::random::<OnRuns>),
    ("tc-rust", "timeline on runs: the Rust's settings, against its Timeline", timeline::rust::<OnRuns>),
    ("tc-any", "timeline on runs: every m, first intervals of any size", timeline::any::<OnRuns>),
    ("tc-wide", "timeline on runs: tables of any shape to 2 MB", timeline::wide::<OnRuns>),
    ("tc-long", "timeline on runs: the Rust's settings, lists that thin several times", timeline::long::<OnRuns>),
    ("tc-far", "timeline on runs: targets to 2^62 and beyond", timeline::far::<OnRuns>),
    ("tc-refus", "timeline on runs: damaged values, slots, stores, tables, together too", timeline::refuse::<OnRuns>),
    ("tc-space", "timeline on runs: few run places", timeline::space::<OnRuns>),
];

/// Kinds that run by hand only.
pub const BY_HAND: [Kind; 3] = [
    ("large", "tapes that double past 2^20 cells", large::cells),
    ("large-t", "timeline: tapes that double past 2^20 cells", large::timelines),
    ("tables", "tables to 128 MB, on both engines and both timelines", large::tables),
];

/// Cases begun so far, for the watchdog.
pub static PROGRESS: AtomicU64 = AtomicU64::new(0);

/// Runs the cases of one kind and counts them; ends the program at the first difference.
pub struct Runner {
    pub kind: &'static str,
    pub seed: u64,
    pub scale: u64,
    /// Whether every case is printed before it runs.
    pub trace: bool,
    pub tally: Tally,
}

impl Runner {
    pub fn case(&mut self, case: &impl Trial) {
        PROGRESS.fetch_add(1, Ordering::Relaxed);
        if self.trace {
            println!("{} {}:\n{case}", self.kind, self.tally.cases);
        }
        let Some(message) = attempt(case, &mut self.tally) else {
            return;
        };
        println!(
            "DIFFERENCE in {}, case {} (--seed {} --scale {})",
            self.kind, self.tally.cases, self.seed, self.scale
        );
        println!("as found: {message}");
        // The search is silent: what panics there is part of the message.
        std::panic::set_hook(Box::new(|_| {}));
        let (case, message) = smallest(case, message, |c| attempt(c, &mut Tally::default()));
        println!("smallest: {message}\n{case}");
        exit(1);
    }

    /// Ends the program if a fact of document 01 does not hold.
    pub fn fact(&mut self, holds: bool, fact: &str) {
        self.tally.cases += 1;
        if !holds {
            println!("DIFFERENCE in {}: {fact}", self.kind);
            exit(1);
        }
    }

    /// The generator of the case that comes next.
    pub fn rng(&self) -> Rng {
        Rng::of(self.seed, self.kind, self.tally.cases)
    }
}

/// The difference that a case shows, if any.
fn attempt(case: &impl Trial, tally: &mut Tally) -> Option<String> {
    match catch_unwind(AssertUnwindSafe(|| case.attempt(tally))) {
        Ok(Ok(())) => None,
        Ok(Err(message)) => Some(message),
        Err(panic) => {
            let text = panic.downcast_ref::<String>().cloned();
            let text = text.or_else(|| panic.downcast_ref::<&str>().map(ToString::to_string));
            Some(format!("the harness or the oracle panicked: {}", text.unwrap_or_default()))
        }
    }
}
