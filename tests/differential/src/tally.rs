//! What is counted, and how a call is judged.

use crate::law::Refusal;
use crate::port::Out;

/// The departures that are named in document 01; they are counted, not failed.
pub const DEPARTURES: [&str; 6] = [
    "the port is full where the Rust grows (compared up to that step)",
    "a word symbol not below k is refused, the Rust panics (not run there)",
    "find_non_blank finds a cell where the Rust's index sum overflows",
    "steps + fuel, or a target, over 2^62 is refused, the Rust saturates (not run there)",
    "an action whose row passes 64 bits packs as undefined, the Rust's product overflows (not run there)",
    "lookup counts the symbol of a tape that the machine lacks, the Rust leaves it out",
];
/// Places in [`DEPARTURES`].
pub const FULL: usize = 0;
pub const WORD_SYMBOL: usize = 1;
pub const FAR_FIND: usize = 2;
pub const FAR_STEPS: usize = 3;
pub const FAR_ROW: usize = 4;
pub const LACKING_SYMBOL: usize = 5;

/// What was counted in one kind of run.
#[derive(Default, Clone)]
pub struct Tally {
    pub cases: u64,
    /// Calls, questions apart.
    pub calls: u64,
    pub questions: u64,
    /// Calls and questions that were refused, by number.
    pub refusals: [u64; 19],
    /// Runs by outcome: halted, fuel, never, stopped, full.
    pub outcomes: [u64; 5],
    /// Steps made by the port; by its run-length engine, macro steps.
    pub steps: u64,
    pub departures: [u64; DEPARTURES.len()],
    /// Runs left out because their fuel is endless and they would not end.
    pub skipped: u64,
    /// Accepted calls that wrote into `out` beyond what is documented.
    pub wrote_more: u64,
    /// Configurations of the run-length engine compared with the plain one's.
    pub beside: u64,
    /// What was held against the timeline, by [`TIMELINE`].
    pub timeline: [u64; TIMELINE.len()],
}

/// Names of what is counted in a timeline's runs.
pub const TIMELINE: [&str; 6] =
    ["with the Rust's seek", "its forward", "its back", "with a run from the start", "slots visited", "times thinned"];
/// The first of three: seek, forward, back.
pub const WITH_RUST: usize = 0;
pub const ANEW: usize = 3;
pub const VISITED: usize = 4;
pub const THINNED: usize = 5;

impl Tally {
    pub fn add(&mut self, other: &Tally) {
        self.cases += other.cases;
        self.calls += other.calls;
        self.questions += other.questions;
        self.steps += other.steps;
        self.skipped += other.skipped;
        self.wrote_more += other.wrote_more;
        self.beside += other.beside;
        for (a, b) in self.refusals.iter_mut().zip(other.refusals) {
            *a += b;
        }
        for (a, b) in self.outcomes.iter_mut().zip(other.outcomes) {
            *a += b;
        }
        for (a, b) in self.departures.iter_mut().zip(other.departures) {
            *a += b;
        }
        for (a, b) in self.timeline.iter_mut().zip(other.timeline) {
            *a += b;
        }
    }
}

/// A difference, in words.
pub type Difference = String;

/// Fails with a message if the two are not equal.
macro_rules! same {
    ($port:expr, $want:expr, $($what:tt)+) => {{
        let (port, want) = (&$port, &$want);
        if port != want {
            return Err(format!("{}: the port has {port:?}, expected {want:?}", format!($($what)+)));
        }
    }};
}

pub(crate) use same;

/// Compares a call's result and `out` with the expected refusal. Says whether it was accepted.
pub fn judge(
    (result, out): (u8, &Out),
    expected: Option<Refusal>,
    documented: usize,
    tally: &mut Tally,
) -> Result<bool, Difference> {
    let Some(Refusal { number, place }) = expected else {
        same!(result, 0, "result (a refusal's number)");
        if out[documented..] != OUT[documented..] {
            tally.wrote_more += 1;
        }
        return Ok(true);
    };
    same!(result, number, "result (a refusal's number)");
    let mut want = OUT;
    if let Some(place) = place {
        want[0] = place;
    }
    same!(*out, want, "out after refusal {number}");
    tally.refusals[usize::from(number)] += 1;
    match number {
        10 => tally.departures[WORD_SYMBOL] += 1,
        13 => tally.departures[FAR_STEPS] += 1,
        _ => {}
    }
    Ok(false)
}

/// What `out` holds before a call: a number that no answer is.
pub const OUT: Out = [7_777_777_777_777_777_777; 8];
