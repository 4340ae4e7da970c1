//! Every part of a packed word, on any word, and the word of any action with any stride, against the Rust's `Packed`.

use std::fmt;

use crate::case::Trial;
use crate::compare::entry_in;
use crate::generate::Rng;
use crate::law::word_of;
use crate::runner::Runner;
use crate::tally::{Difference, FAR_ROW, OUT, Tally, same};
use crate::{oracle, port};

#[derive(Clone, Copy, Debug)]
pub enum Case {
    /// All parts of a word.
    Word(u64),
    /// The word of an action, or of none where `defined` is 0.
    New { defined: u8, write: u8, dir: u8, next: u16, stride: u64 },
}

impl fmt::Display for Case {
    fn fmt(&self, f: &mut fmt::Formatter<'_>) -> fmt::Result {
        write!(f, "  {self:x?}")
    }
}

/// The parts of a word, its action and its entry.
fn parts(word: u64) -> Result<(), Difference> {
    let mut out = OUT;
    same!(port::packed(word, &mut out), 0, "the parts' result");
    let want = oracle::packed(word);
    same!(out[..5], want, "parts [defined, move, write, next, row]");
    same!(out[5..], OUT[5..], "the rest of out");
    let mut out = OUT;
    same!(port::packed_action(word, &mut out), 0, "the action's result");
    let action = oracle::packed_action(word);
    same!(out[..7], action, "action [next, writes, moves]");
    same!(out[7..], OUT[7..], "the rest of out");
    let mut out = OUT;
    same!(port::packed_entry(word, &mut out), 0, "the entry's result");
    same!(entry_in(&out)?, (want[0] == 1).then_some(action), "entry [next, writes, moves]");
    Ok(())
}

impl Trial for Case {
    fn attempt(&self, tally: &mut Tally) -> Result<(), Difference> {
        tally.cases += 1;
        let Case::New { defined, write, dir, next, stride } = *self else {
            let Case::Word(word) = *self else { unreachable!("one of two") };
            tally.calls += 3;
            return parts(word);
        };
        tally.calls += 1;
        let mut out = OUT;
        same!(port::packed_new(defined, write, dir, next, stride, &mut out), 0, "result");
        let want = if defined == 0 { 3 } else { word_of(u64::from(dir.min(2)), write, next, stride) };
        same!(out[0], want, "word (by the formula)");
        same!(out[1..], OUT[1..], "the rest of out");
        if defined != 0 && u64::from(next).checked_mul(stride).is_none() {
            tally.departures[FAR_ROW] += 1;
        } else {
            let action = (defined != 0).then_some((write, dir, next));
            same!(out[0], oracle::packed_new(action, stride), "word (the Rust's)");
        }
        parts(out[0])
    }

    fn smaller(&self) -> Vec<Self> {
        match *self {
            Case::Word(word) => (0..64).filter(|i| word >> i & 1 == 1).map(|i| Case::Word(word ^ 1 << i)).collect(),
            Case::New { defined, write, dir, next, stride } => {
                let strides = [1, stride / 2, stride.saturating_sub(1)].into_iter().filter(|&s| s < stride);
                let nexts = [0, next / 2, next.saturating_sub(1)].into_iter().filter(|&q| q < next);
                let mut all: Vec<Case> =
                    strides.map(|stride| Case::New { defined, write, dir, next, stride }).collect();
                all.extend(nexts.map(|next| Case::New { defined, write, dir, next, stride }));
                all.extend((write > 0).then_some(Case::New { defined, write: 0, dir, next, stride }));
                all.extend((defined > 1).then_some(Case::New { defined: 1, write, dir, next, stride }));
                all
            }
        }
    }
}

/// A word: any, or one that is nearly undefined, or with few bits.
fn word(rng: &mut Rng) -> u64 {
    match rng.below(6) {
        0 => 3 ^ 1 << rng.below(64),
        1 => rng.next() & rng.next() & rng.next(),
        2 => rng.next() << 8 | rng.below(5),
        3 => (rng.next() & 0xffff_ffff_0000_0000) | 3,
        _ => rng.next(),
    }
}

/// A stride: any, or one whose product with `next` lies at 2^32 or 2^64.
fn stride(rng: &mut Rng, next: u16) -> u64 {
    let by = u128::from(next.max(1));
    let near = |bits: u32, rng: &mut Rng| {
        let least = (1_u128 << bits).div_ceil(by) as u64;
        least.wrapping_add(rng.below(5)).wrapping_sub(3)
    };
    match rng.below(8) {
        0 => near(32, rng),
        1 => near(64, rng),
        2 => 1 << rng.below(64),
        3 => rng.pick(&[0, 1, 2, 256, 65_536, 1 << 24, 1 << 32, (1 << 32) - 1, 1 << 63, u64::MAX]),
        4 => rng.between(1, 256),
        _ => rng.next() >> rng.below(64),
    }
}

/// Every low byte over some words, every move and defined byte, strides at every power of two; then at random.
pub fn words(r: &mut Runner) {
    for high in [0, 1 << 8, 1 << 16, 1 << 32, u64::MAX << 8, 0xffff << 16] {
        (0..256).for_each(|low| r.case(&Case::Word(high | low)));
    }
    for bits in 0..64 {
        for next in [0, 1, 2, 3, 255, 256, 65_535] {
            for stride in [1 << bits, (1 << bits) - 1, u64::MAX >> bits] {
                r.case(&Case::New { defined: 1, write: 1, dir: 1, next, stride });
            }
        }
    }
    for byte in 0..=255 {
        r.case(&Case::New { defined: byte, write: 7, dir: 1, next: 5, stride: 9 });
        r.case(&Case::New { defined: 1, write: 7, dir: byte, next: 5, stride: 9 });
    }
    for _ in 0..200_000 * r.scale {
        let mut rng = r.rng();
        r.case(&Case::Word(word(&mut rng)));
        let next = match rng.below(4) {
            0 => rng.pick(&[0, 1, 2, 255, 256, 65_535]),
            1 => rng.below(9) as u16,
            _ => rng.next() as u16,
        };
        let (write, dir) = (rng.next() as u8, rng.pick(&[0, 1, 2, 2, 3, 255]));
        let defined = if rng.once_in(16) { 0 } else { rng.pick(&[1, 1, 2, 255]) };
        let stride = stride(&mut rng, next);
        r.case(&Case::New { defined, write, dir, next, stride });
    }
}
