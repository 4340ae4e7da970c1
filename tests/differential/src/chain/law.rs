//! Document 01's refusals for the run-length engine, and when a side is full, written down on their
//! own.

use crate::law::{MAX_STEPS, MAX_WORD, Refusal, Sizes, at, when};

/// A run-length engine's numbers: `[steps, macro steps, runs left, runs right, head, lowest,
/// highest]`, the last three raised by 2^63.
pub type Chain = [u64; 7];

/// An engine value as it crosses the boundary.
#[derive(Clone, Copy, Debug, PartialEq, Eq)]
pub struct Value {
    pub state: u16,
    /// The symbol under the head.
    pub cur: u8,
    pub engine: Chain,
}

pub const STEPS: usize = 0;
pub const MACROS: usize = 1;
pub const LEFT: usize = 2;
pub const RIGHT: usize = 3;
pub const HEAD: usize = 4;
pub const LOWEST: usize = 5;
pub const HIGHEST: usize = 6;

/// Position 0, raised.
pub const ZERO: u64 = 1 << 63;
/// The most run places of a side, and by how much a side may be longer than the steps.
pub const SLACK: u64 = 1 << 20;

/// One side's lent places: symbols and lengths. It has as many places as both slices.
#[derive(Clone, Copy)]
pub struct Side<'a>(pub &'a [u8], pub &'a [u64]);

impl Side<'_> {
    pub fn places(&self) -> u64 {
        self.0.len().min(self.1.len()) as u64
    }

    /// The cells of the first `count` runs, where those are a stack of runs in their places.
    fn cells(&self, count: u64, symbols: u64) -> Option<u128> {
        if count > self.places() {
            return None;
        }
        let run = |i: usize| {
            let below = if i == 0 { 0 } else { self.0[i - 1] };
            self.1[i] >= 1 && self.0[i] != below && u64::from(self.0[i]) < symbols
        };
        let count = count as usize;
        (0..count).all(run).then(|| self.1[..count].iter().map(|&n| u128::from(n)).sum())
    }
}

/// The number of runs of the word's right stack: all but the first symbol, less the blanks at the
/// end.
pub fn runs_of(word: &[u8]) -> usize {
    let end = word.iter().rposition(|&a| a != 0).map_or(0, |i| i + 1);
    let rest = if end > 1 { &word[1..end] } else { &[] };
    rest.chunk_by(|a, b| a == b).count()
}

/// A fresh engine, after the table check. The places are those of the left and the right side.
pub fn fresh(sizes: &Sizes, word: &[u8], left: u64, right: u64) -> Option<Refusal> {
    when(sizes.tapes != 1, 8)
        .or_else(|| when(word.len() > MAX_WORD, 9))
        .or_else(|| at(word.iter().position(|&a| u64::from(a) >= sizes.symbols), 10))
        .or_else(|| when(left > SLACK || right > SLACK || right < runs_of(word) as u64, 11))
}

/// What an engine value lent to any operation is refused for, after the table check.
pub fn lent(sizes: &Sizes, value: &Value, left: Side, right: Side) -> Option<Refusal> {
    when(sizes.tapes != 1, 8)
        .or_else(|| when(left.places() > SLACK || right.places() > SLACK, 11))
        .or_else(|| when(!fits(sizes, value, left, right), 12))
}

/// Whether an engine value fits.
fn fits(sizes: &Sizes, value: &Value, left: Side, right: Side) -> bool {
    let [steps, macros, lefts, rights, head, lowest, highest] = value.engine;
    let small = u64::from(value.state) < sizes.states
        && steps <= MAX_STEPS
        && macros <= steps
        && u64::from(value.cur) < sizes.symbols;
    let from_0 = |x: u64| x.abs_diff(ZERO) <= steps;
    let ordered = lowest <= head && head <= highest && [lowest, head, highest].into_iter().all(from_0);
    let (Some(l), Some(r)) = (left.cells(lefts, sizes.symbols), right.cells(rights, sizes.symbols)) else {
        return false;
    };
    let most = u128::from(steps) + u128::from(SLACK);
    let head = i128::from(head) - i128::from(ZERO);
    let far = |at: i128| at.unsigned_abs() <= most;
    small && ordered && l <= most && r <= most && far(head - l as i128) && far(head + r as i128)
}
