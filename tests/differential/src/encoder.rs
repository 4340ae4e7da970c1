//! The encoder against the Rust's `Machine::encode_input`, and its two parts against `Alphabet::symbol` and `is_input`.

use std::fmt;

use crate::case::{Short, Trial, smaller_lists};
use crate::generate::Rng;
use crate::law::{Refusal, at, when};
use crate::lent::Lent;
use crate::machine::Machine;
use crate::runner::Runner;
use crate::tally::{Difference, OUT, Tally, judge, same};
use crate::{oracle, port};

/// One word.
#[derive(Clone, Default)]
pub struct Case {
    pub glyphs: Vec<u32>,
    pub flags: Vec<u8>,
    pub word: Vec<u32>,
    /// How long the output is.
    pub room: usize,
}

impl Case {
    /// Document 01: "A glyph is the first equal one among the first 256; it must be blank or flagged input, a missing
    /// flag counting as unset." "17 glyph not allowed (first place), 18 output shorter than the word."
    fn refusal(&self) -> Option<Refusal> {
        let allowed = |&glyph: &u32| match self.glyphs.iter().take(256).position(|&g| g == glyph) {
            None => false,
            Some(0) => true,
            Some(symbol) => symbol < self.flags.len() && self.flags[symbol] != 0,
        };
        let bad = self.word.iter().position(|glyph| !allowed(glyph));
        at(bad, 17).or_else(|| when(self.room < self.word.len(), 18))
    }

    /// The Rust's machine with these glyphs and flags, and its glyphs for ours. Its glyphs are `char`s: each number here
    /// becomes one of its own, since only equality counts.
    fn machine(&self) -> (Machine, impl Fn(&u32) -> char) {
        let mut seen: Vec<u32> = [&self.glyphs[..], &self.word].concat();
        seen.sort_unstable();
        seen.dedup();
        let char_of = move |glyph: &u32| char::from_u32(0x100 + seen.binary_search(glyph).unwrap() as u32).unwrap();
        let input = self.flags.iter().map(|&f| f != 0).collect();
        (oracle::with_alphabet(self.glyphs.iter().map(&char_of).collect(), input), char_of)
    }

    /// The Rust's answer.
    pub(crate) fn rust(&self) -> Result<Vec<u8>, usize> {
        let (machine, char_of) = self.machine();
        oracle::encode(&machine, &self.word.iter().map(char_of).collect::<String>())
    }

    /// The symbol of each glyph of the word and of some of the list, and whether the symbols around it are input.
    fn parts(&self, tally: &mut Tally) -> Result<(), Difference> {
        let (machine, char_of) = self.machine();
        let at = |i: usize| self.glyphs.get(i);
        let listed = [0, 1, 254, 255, 256, 257].into_iter().filter_map(at).chain(self.glyphs.last());
        let mut symbols = vec![0, 254, 255, self.flags.len() as u8, self.flags.len().wrapping_sub(1) as u8];
        for glyph in self.word.iter().chain(listed) {
            let (mut out, want) = (OUT, oracle::symbol_for(&machine, char_of(glyph)));
            same!(port::symbol_for(&self.glyphs, *glyph, &mut out), 0, "symbol_for {glyph}: result");
            same!(out[0] > 1, false, "symbol_for {glyph}: out[0] = {} is 0 or 1", out[0]);
            let used = if out[0] == 0 { 1 } else { 2 };
            same!(out[used..], OUT[used..], "symbol_for {glyph}: the rest of out");
            same!((out[0] == 1).then_some(out[1]), want.map(u64::from), "symbol_for {glyph}");
            symbols.extend(want);
            tally.questions += 1;
        }
        for symbol in symbols {
            let mut out = OUT;
            same!(port::is_input(&self.flags, symbol, &mut out), 0, "is_input {symbol}: result");
            same!(out[0], u64::from(oracle::is_input(&machine, symbol)), "is_input {symbol}");
            same!(out[1..], OUT[1..], "is_input {symbol}: the rest of out");
            tally.questions += 1;
        }
        Ok(())
    }
}

impl fmt::Display for Case {
    fn fmt(&self, f: &mut fmt::Formatter<'_>) -> fmt::Result {
        writeln!(f, "  glyphs {:?}\n  flags {}", self.glyphs, Short(&self.flags))?;
        write!(f, "  word {:?}, output of {}", self.word, self.room)
    }
}

impl Trial for Case {
    fn attempt(&self, tally: &mut Tally) -> Result<(), Difference> {
        tally.cases += 1;
        tally.calls += 1;
        let expected = self.refusal();
        let rust = self.rust();
        let place = expected.and_then(|r| r.place);
        same!(place, rust.as_ref().err().map(|&i| i as u64), "the place by document 01, and by the Rust");
        let mut symbols = Lent::new(0xa5, (0..self.room).map(|i| 0xb0 ^ i as u8));
        let mut out = OUT;
        let result = port::encode(&self.glyphs, &self.flags, &self.word, symbols.lend(), &mut out);
        let accepted = judge((result, &out), expected, 0, tally)?;
        let length = if accepted { self.word.len() } else { 0 };
        same!(symbols.kept_past(length), true, "bytes that are not the word's stay, result {result}");
        if accepted {
            same!(Ok(symbols.part()[..length].to_vec()), rust, "symbols");
        }
        self.parts(tally)
    }

    fn smaller(&self) -> Vec<Self> {
        let glyphs = smaller_lists(&self.glyphs, |_| Vec::new()).into_iter();
        let flags = smaller_lists(&self.flags, |_| Vec::new()).into_iter();
        let words = smaller_lists(&self.word, |_| Vec::new()).into_iter();
        let mut all: Vec<Case> = glyphs.map(|glyphs| Case { glyphs, ..self.clone() }).collect();
        all.extend(flags.map(|flags| Case { flags, ..self.clone() }));
        all.extend(words.map(|word| Case { word, ..self.clone() }));
        all.extend(self.room.checked_sub(1).map(|room| Case { room, ..self.clone() }));
        all
    }
}

/// All lists of at most `most` of these.
fn lists<T: Copy>(of: &[T], most: usize) -> Vec<Vec<T>> {
    let mut all = vec![Vec::new()];
    let mut longest = 0;
    for _ in 0..most {
        let longer = |list: &Vec<T>| of.iter().map(|&x| [&list[..], &[x]].concat()).collect::<Vec<_>>();
        let next: Vec<Vec<T>> = all[longest..].iter().flat_map(longer).collect();
        longest = all.len();
        all.extend(next);
    }
    all
}

/// A glyph: one of few, or one that is no `char`, or any.
fn glyph(rng: &mut Rng, few: u64) -> u32 {
    match rng.below(12) {
        0 => rng.pick(&[0, 0xd800, 0x0011_0000, u32::MAX]),
        1 => rng.next() as u32,
        _ => 97 + rng.below(few) as u32,
    }
}

/// A word of which most glyphs are allowed.
pub(crate) fn random(rng: &mut Rng) -> Case {
    let few = rng.pick(&[2, 5, 40, 300]);
    let many = rng.pick(&[3, 10, 255, 256, 257, 300]);
    let number = rng.below(many + 1);
    let glyphs: Vec<u32> = match rng.below(3) {
        // each of its own, so that glyphs 254 to 257 are not copies of earlier ones
        0 => (0..number as u32).map(|i| 1000 + i).collect(),
        _ => (0..number).map(|_| glyph(rng, few)).collect(),
    };
    let unset = rng.pick(&[2, 10, 1000]);
    let flags = 0..rng.between(number.saturating_sub(3), number + 3);
    let flags: Vec<u8> = flags.map(|_| if rng.once_in(unset) { 0 } else { rng.pick(&[1, 1, 2, 128, 255]) }).collect();
    let odd = rng.pick(&[3, 30, 1000]);
    let place = |rng: &mut Rng| match rng.below(4) {
        0 => number - 1 - rng.below(number.min(4)),
        _ => rng.below(number),
    };
    let letter = |rng: &mut Rng| match number {
        0 => glyph(rng, few),
        _ if rng.once_in(odd) => glyph(rng, few),
        _ => glyphs[place(rng) as usize],
    };
    let word: Vec<u32> = (0..rng.below(12)).map(|_| letter(rng)).collect();
    let room = (word.len() as u64 + rng.below(4)).saturating_sub(rng.pick(&[0, 0, 1, 2]));
    Case { glyphs, flags, word, room: room as usize }
}

/// All small words over all small lists of glyphs and flags, and random ones.
pub fn words(r: &mut Runner) {
    for glyphs in lists(&[7, 8, 9], 3) {
        for flags in lists(&[0, 1], 3) {
            for word in lists(&[7, 8, 9], 2) {
                for room in 0..4 {
                    r.case(&Case { glyphs: glyphs.clone(), flags: flags.clone(), word: word.clone(), room });
                }
            }
        }
    }
    for _ in 0..100_000 * r.scale {
        let case = random(&mut r.rng());
        r.case(&case);
    }
}
