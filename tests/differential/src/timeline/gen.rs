//! Random settings, lists of calls, and things that are wrong with them.

use std::rc::Rc;

use super::case::Act;
use super::kind::{Kind, OnCells, OnRuns};
use super::law::{COUNT, Call, EVERY, FIRST, MOST};
use super::odd::{How, Odd};
use crate::case::{self, Subject};
use crate::chain;
use crate::chain::law::runs_of;
use crate::generate::{self, Rng};
use crate::law::{MAX_STEPS, Sizes};

/// A kind with its random engines.
pub trait Source: Kind {
    /// Sizes of a machine with at most so many entries; seldom one that this kind does not take.
    fn sizes(rng: &mut Rng, most: u64) -> Sizes;
    /// Sizes of a machine of any number of symbols and states with at most so many entries.
    fn wide(rng: &mut Rng, most: u64) -> Sizes;
    /// An engine with thousands of cells or with many runs.
    fn long(rng: &mut Rng, sizes: &Sizes) -> Self::Begin;
    /// A value set from outside that fits.
    fn fitting(rng: &mut Rng, sizes: &Sizes) -> Self::Begin;
    /// A fresh engine with any room.
    fn any(rng: &mut Rng, sizes: &Sizes, word: Vec<u8>) -> Self::Begin;
    /// A fresh engine with hardly any.
    fn tight(rng: &mut Rng, word: Vec<u8>) -> Self::Begin;
    /// A place of the value that [`Kind::spoil`] knows, and what to put there.
    fn place(rng: &mut Rng, sizes: &Sizes) -> (usize, u64);
}

impl Source for OnCells {
    fn sizes(rng: &mut Rng, most: u64) -> Sizes {
        generate::sizes(rng, most)
    }

    fn wide(rng: &mut Rng, most: u64) -> Sizes {
        let tapes = rng.between(1, 3);
        generate::wide_sizes(rng, tapes, most)
    }

    fn long(rng: &mut Rng, sizes: &Sizes) -> case::Begin {
        generate::long_value(rng, sizes, 4000)
    }

    fn fitting(rng: &mut Rng, sizes: &Sizes) -> case::Begin {
        generate::fitting(rng, sizes)
    }

    fn any(rng: &mut Rng, sizes: &Sizes, word: Vec<u8>) -> case::Begin {
        let room = generate::room(rng, sizes.tapes, word.len());
        case::Begin::Fresh { word, room }
    }

    fn tight(rng: &mut Rng, word: Vec<u8>) -> case::Begin {
        let least = 32 + word.len() as u64;
        let room = [least, 32, 32].map(|n| match rng.below(4) {
            0 => n,
            1 => 2 * n - 1,
            2 => 2 * n,
            _ => rng.between(n, 5 * n),
        } as usize);
        case::Begin::Fresh { word, room }
    }

    fn place(rng: &mut Rng, sizes: &Sizes) -> (usize, u64) {
        let near = rng.below(100);
        match rng.below(6) {
            0 => (16, rng.pick(&[sizes.states, 65_535, 0])),
            1 => (0, rng.pick(&[MAX_STEPS + 1, 0, MAX_STEPS, near])),
            2 => (17 + rng.below(120) as usize, rng.pick(&[255, sizes.symbols, 0])),
            _ => (1 + rng.below(15) as usize, rng.pick(&[0, 31, 32, 33, 1 << 32, u64::MAX, near])),
        }
    }
}

impl Source for OnRuns {
    fn sizes(rng: &mut Rng, most: u64) -> Sizes {
        chain::generate::sizes(rng, most, 60)
    }

    fn wide(rng: &mut Rng, most: u64) -> Sizes {
        let tapes = if rng.once_in(30) { rng.between(2, 3) } else { 1 };
        generate::wide_sizes(rng, tapes, most)
    }

    fn long(rng: &mut Rng, sizes: &Sizes) -> chain::case::Begin {
        chain::generate::long(rng, sizes)
    }

    fn fitting(rng: &mut Rng, sizes: &Sizes) -> chain::case::Begin {
        chain::generate::fitting(rng, sizes)
    }

    fn any(rng: &mut Rng, _: &Sizes, word: Vec<u8>) -> chain::case::Begin {
        chain::generate::fresh(rng, word)
    }

    fn tight(rng: &mut Rng, word: Vec<u8>) -> chain::case::Begin {
        let few = |rng: &mut Rng, least: usize| (least + rng.below(4) as usize, least + rng.below(4) as usize);
        let (left, right) = (few(rng, 0), few(rng, runs_of(&word)));
        chain::case::Begin::Fresh { word, left, right }
    }

    fn place(rng: &mut Rng, sizes: &Sizes) -> (usize, u64) {
        let near = rng.below(100);
        match rng.below(6) {
            0 => (7, rng.pick(&[sizes.states, 65_535, 0])),
            1 => (8, rng.pick(&[255, sizes.symbols, 0])),
            2 => (0, rng.pick(&[MAX_STEPS + 1, 0, MAX_STEPS, near])),
            3 => (1 + rng.below(6) as usize, rng.pick(&[0, u64::MAX, 1 << 63, near])),
            _ => (9 + rng.below(12) as usize, rng.pick(&[0, 1, 255, sizes.symbols, u64::MAX])),
        }
    }
}

/// Settings: m and the first interval.
pub fn settings(rng: &mut Rng) -> (u64, u64) {
    match rng.below(8) {
        0 => (1, rng.between(1, 8)),
        1 => (rng.between(1, 16), 1),
        2 => (rng.pick(&[511, 512, 40]), rng.between(1, 4)),
        3 => (rng.between(1, 4), rng.between(1, 4)),
        _ => (rng.between(1, 16), rng.between(1, 64)),
    }
}

/// Settings with any m and any first interval, its number of bits as often any as another.
pub fn any_settings(rng: &mut Rng) -> (u64, u64) {
    (rng.between(1, 512), rng.log(1, 1 << 32))
}

/// So many calls about steps up to `reach`, often at the boundaries of `every`.
pub fn calls(rng: &mut Rng, count: u64, reach: u64, every: u64) -> Vec<Call> {
    let one = |rng: &mut Rng| {
        let boundary = every.saturating_mul(rng.below(reach / every.max(1) + 2)).min(2 * reach + every);
        match rng.below(24) {
            0 => Call::Seek(0),
            1 => Call::Forward(0),
            2 => Call::Back(0),
            3 => Call::Back(rng.pick(&[u64::MAX, 2 * reach, MAX_STEPS, 1 << 63])),
            4 => Call::Forward(1),
            5 => Call::Back(1),
            6 | 7 => Call::Seek(boundary),
            8 => Call::Seek(boundary + 1),
            9 => Call::Seek(boundary.saturating_sub(1)),
            10 => Call::Forward(every.min(reach)),
            11 => Call::Back(every),
            12..=14 => Call::Forward(rng.below(reach / 2 + 2)),
            15..=17 => Call::Back(rng.below(reach / 2 + 2)),
            18 => Call::Seek(reach),
            19 if rng.once_in(3) => Call::Seek(rng.pick(&[MAX_STEPS + 1, u64::MAX, 1 << 63])),
            19 if rng.once_in(3) => Call::Forward(rng.pick(&[MAX_STEPS, MAX_STEPS + 1, u64::MAX, 1 << 63])),
            19 if rng.once_in(20) => Call::Seek(MAX_STEPS - rng.below(3)),
            _ => Call::Seek(rng.below(reach + 1)),
        }
    };
    (0..count).map(|_| one(rng)).collect()
}

/// One thing that may be wrong.
pub fn odd<K: Source>(rng: &mut Rng, subject: &Subject) -> Odd {
    match rng.below(12) {
        0..=3 => times(rng),
        4 => Odd::Short(rng.pick(&[1, 1, 2, 128, 1000, usize::MAX])),
        5 | 6 => {
            let (place, to) = K::place(rng, &subject.sizes);
            Odd::Value(place, to)
        }
        7 => Odd::Table(other_table(rng, subject)),
        _ => {
            let how = match rng.below(6) {
                0 | 1 => How::Random,
                2 => How::Zeros,
                3 => How::Cells,
                4 => How::Byte(rng.next() as usize, rng.next() as u8),
                _ => How::Copy(rng.below(16) as usize),
            };
            Odd::Slot((!rng.once_in(2)).then(|| rng.below(16) as usize), how)
        }
    }
}

fn times(rng: &mut Rng) -> Odd {
    let big = rng.pick(&[0, 1 << 32, 1 << 62, 1 << 63, (1 << 63) + 1, u64::MAX, u64::MAX - 511]);
    match rng.below(4) {
        0 => Odd::Times(MOST, rng.pick(&[0, 1, 2, 511, 512, 513, big])),
        1 => Odd::Times(FIRST, rng.pick(&[0, 1, 5, 100, MAX_STEPS, big])),
        2 => Odd::Times(COUNT, rng.pick(&[0, 1, 2, 3, 17, 513, big])),
        _ => Odd::Times(EVERY, rng.pick(&[0, 1, 2, 3, 50, 1 << 33, big])),
    }
}

/// The same table with one thing changed.
fn other_table(rng: &mut Rng, subject: &Subject) -> Rc<Subject> {
    let (mut sizes, mut table) = (subject.sizes, subject.table.clone());
    match rng.below(6) {
        0 => sizes.tapes = rng.pick(&[0, 4, u64::MAX]),
        1 => sizes.symbols = rng.pick(&[0, 257, u64::MAX]),
        2 => sizes.states = rng.pick(&[0, 65_537, u64::MAX]),
        3 => sizes.start = rng.pick(&[sizes.states, u64::MAX]),
        4 => table.truncate(table.len().saturating_sub(rng.pick(&[1, 8]))),
        _ if table.is_empty() => sizes.tapes = 0,
        _ => {
            let at = rng.below(table.len() as u64) as usize;
            table[at] ^= 0x80;
        }
    }
    Subject::new(sizes, table)
}

/// A call with one or several things wrong, seldom none.
pub fn odd_act<K: Source>(rng: &mut Rng, subject: &Subject, call: Call) -> Act {
    let count = rng.pick(&[0, 1, 1, 1, 1, 2, 2, 3]);
    Act { call, odds: (0..count).map(|_| odd::<K>(rng, subject)).collect() }
}
