//! Document 01's refusals for the timeline, and which step a call goes to, written down on their own.

use crate::law::{MAX_STEPS, Refusal, when};

/// A timeline's own value: `[most, first, count, every]`.
pub type Times = [u64; 4];

pub const MOST: usize = 0;
pub const FIRST: usize = 1;
pub const COUNT: usize = 2;
pub const EVERY: usize = 3;

/// The Rust's settings: m and the first interval.
pub const RUST: (u64, u64) = (512, 4096);

/// A call and its number.
#[derive(Clone, Copy, Debug, PartialEq, Eq)]
pub enum Call {
    Seek(u64),
    Forward(u64),
    Back(u64),
}

impl Call {
    /// As it crosses the boundary; what is neither seek nor forward is back.
    pub fn numbers(self) -> (u8, u64) {
        match self {
            Call::Seek(n) => (0, n),
            Call::Forward(n) => (1, n),
            Call::Back(n) => ([2, 3, 255][(n % 3) as usize], n),
        }
    }

    /// The same call with another number.
    pub fn with(self, n: u64) -> Self {
        match self {
            Call::Seek(_) => Call::Seek(n),
            Call::Forward(_) => Call::Forward(n),
            Call::Back(_) => Call::Back(n),
        }
    }

    /// The target, from step `p`.
    pub fn target(self, p: u64) -> u128 {
        match self {
            Call::Seek(s) => u128::from(s),
            Call::Forward(n) => u128::from(p) + u128::from(n),
            Call::Back(n) => u128::from(p.saturating_sub(n)),
        }
    }
}

/// start + count × interval.
pub fn due(times: &Times) -> u128 {
    u128::from(times[FIRST]) + u128::from(times[COUNT]) * u128::from(times[EVERY])
}

/// Refusal 14 of a new timeline.
pub fn settings(most: u64, every: u64) -> Option<Refusal> {
    when(!(1..=512).contains(&most) || !(1..=1 << 32).contains(&every), 14)
}

/// Refusal 14 of a later value, with the engine at `steps`.
pub fn value(times: &Times, steps: u64) -> Option<Refusal> {
    let [most, first, count, every] = *times;
    let good = (1..=512).contains(&most)
        && (1..=1 << 63).contains(&every)
        && (1..=most).contains(&count)
        && first <= steps
        && u128::from(steps) <= due(times);
    when(!good, 14)
}

/// Refusal 15: a store of so many bytes, with slots of this size.
pub fn store(bytes: usize, slot: usize, most: u64) -> Option<Refusal> {
    when((bytes as u128) < (u128::from(most) + 1) * slot as u128, 15)
}

/// Refusal 13.
pub fn target(target: u128) -> Option<Refusal> {
    when(target > u128::from(MAX_STEPS), 13)
}
