//! Random numbers, tables, engine values, calls and questions.

use std::rc::Rc;

use crate::case::{Act, Begin, NO_RULE, Question, Subject, Words};
use crate::law::{Engine, MAX_STEPS, Sizes, fields};

/// A small generator of random numbers (splitmix64).
pub struct Rng(u64);

impl Rng {
    pub fn new(seed: u64) -> Self {
        Self(seed)
    }

    /// The generator of case `index` of a kind of run.
    pub fn of(seed: u64, kind: &str, index: u64) -> Self {
        let name = kind.bytes().fold(seed, |h, b| (h ^ u64::from(b)).wrapping_mul(0x0100_0000_01b3));
        let mut rng = Self(name ^ index.wrapping_mul(0xd134_2543_de82_ef95));
        rng.next();
        rng
    }

    #[expect(clippy::should_implement_trait)]
    pub fn next(&mut self) -> u64 {
        self.0 = self.0.wrapping_add(0x9e37_79b9_7f4a_7c15);
        let z = (self.0 ^ (self.0 >> 30)).wrapping_mul(0xbf58_476d_1ce4_e5b9);
        let z = (z ^ (z >> 27)).wrapping_mul(0x94d0_49bb_1331_11eb);
        z ^ (z >> 31)
    }

    /// A number below `n`.
    pub fn below(&mut self, n: u64) -> u64 {
        ((u128::from(self.next()) * u128::from(n)) >> 64) as u64
    }

    /// A number from `low` to `high`.
    pub fn between(&mut self, low: u64, high: u64) -> u64 {
        low + self.below(high - low + 1)
    }

    /// True once in `n` times.
    pub fn once_in(&mut self, n: u64) -> bool {
        self.below(n) == 0
    }

    /// A number from `low`, at least 1, to `high`, its number of bits as often any as another.
    pub fn log(&mut self, low: u64, high: u64) -> u64 {
        let bits = self.between(u64::from(low.ilog2()), u64::from(high.ilog2()));
        let end = if bits == 63 { u64::MAX } else { (2 << bits) - 1 };
        self.between(low.max(1 << bits), high.min(end))
    }

    pub fn pick<T: Copy>(&mut self, from: &[T]) -> T {
        from[self.below(from.len() as u64) as usize]
    }
}

/// A defined entry.
pub fn entry(next: u16, write: [u8; 3], moves: [u8; 3]) -> [u8; 8] {
    let [low, high] = next.to_le_bytes();
    let [w0, w1, w2] = write;
    [1, low, high, w0, w1, w2, moves[0] + 3 * moves[1] + 9 * moves[2], 0]
}

/// A one-tape table from `(state, read, write, move, next)`.
pub fn one_tape(symbols: u64, states: u64, entries: &[(usize, usize, u8, u8, u16)]) -> Rc<Subject> {
    let sizes = Sizes { tapes: 1, symbols, states, start: 0 };
    let mut table = vec![0; 8 * sizes.entries()];
    for &(state, read, write, step, next) in entries {
        let at = 8 * (state * symbols as usize + read);
        table[at..at + 8].copy_from_slice(&entry(next, [write, 0, 0], [step, 2, 2]));
    }
    Subject::new(sizes, table)
}

/// Sizes of a machine with at most so many entries.
pub fn sizes(rng: &mut Rng, most: u64) -> Sizes {
    let tapes = rng.pick(&[1, 1, 2, 3]);
    loop {
        let symbols = match rng.below(4) {
            0 => rng.pick(&[1, 2, 64, 65, 128, 255, 256]),
            1 => rng.between(1, 256),
            _ => rng.between(1, 6),
        };
        let states = match rng.below(8) {
            0 => rng.pick(&[1, 255, 256, 257, 4096, 65_535, 65_536]),
            1 => rng.between(1, 2000),
            _ => rng.between(1, 8),
        };
        if symbols.pow(tapes as u32) * states <= most {
            return Sizes { tapes, symbols, states, start: rng.below(states) };
        }
    }
}

/// Sizes of a machine of any number of symbols and states with at most so many entries, their numbers of bits as often
/// any as another; once in a while as many symbols, or as many states, as there can be.
pub fn wide_sizes(rng: &mut Rng, tapes: u64, most: u64) -> Sizes {
    let largest = (1..=256).rev().find(|k: &u64| k.pow(tapes as u32) <= most).expect("at least one entry");
    let symbols = if rng.once_in(6) { largest } else { rng.log(1, largest) };
    let largest = (most / symbols.pow(tapes as u32)).min(65_536);
    let states = if rng.once_in(6) { largest } else { rng.log(1, largest) };
    Sizes { tapes, symbols, states, start: rng.below(states) }
}

/// A random table that passes its check.
pub fn table(rng: &mut Rng, sizes: &Sizes) -> Vec<u8> {
    let Sizes { tapes, symbols, states, .. } = *sizes;
    let tapes = tapes as usize;
    let stride = sizes.stride();
    let undefined = rng.pick(&[0, 0, 1, 4, 16, 64]); // of 128
    let stays = rng.pick(&[0, 0, 8, 16]); // of 16: how often the state is kept
    let sweeps = rng.once_in(4); // keeps the state over blanks
    let blanks = rng.pick(&[0, 4, 12]); // of 16: how often a blank is written
    let keeps = rng.pick(&[0, 0, 4, 12]); // of 16: how often the symbol read is written
    // L, R, N in 16 parts, for each tape.
    let moves: [(u64, u64); 3] =
        std::array::from_fn(|_| rng.pick(&[(8, 16), (5, 11), (5, 11), (12, 16), (4, 16), (0, 16), (16, 16), (2, 4)]));
    let mut table = Vec::with_capacity(8 * sizes.entries());
    for i in 0..sizes.entries() {
        if rng.below(128) < undefined {
            table.extend([0; 8]);
            continue;
        }
        let state = i / stride;
        let mut rest = i % stride;
        let (mut write, mut step) = ([0; 3], [2; 3]);
        let mut blank = true;
        for t in 0..tapes {
            let read = (rest % symbols as usize) as u8;
            rest /= symbols as usize;
            blank &= read == 0;
            write[t] = match rng.below(16) {
                x if x < blanks => 0,
                _ if rng.below(16) < keeps => read,
                _ => rng.below(symbols) as u8,
            };
            step[t] = match rng.below(16) {
                x if x < moves[t].0 => 0,
                x if x < moves[t].1 => 1,
                _ => 2,
            };
        }
        let keep = sweeps && blank || rng.below(16) < stays;
        let next = if keep { state as u64 } else { rng.below(states) };
        table.extend(entry(next as u16, write, step));
    }
    table
}

/// A one-tape machine that keeps its state over blanks and turns or stops at other symbols, with a
/// sparse word: most of its steps could be the first one of a proved loop.
pub fn sweeper(rng: &mut Rng) -> (Rc<Subject>, Vec<u8>) {
    let (symbols, states) = (rng.between(2, 4), rng.between(1, 5));
    let mut entries = Vec::new();
    let (erase, strays) = (rng.below(8), rng.pick(&[0, 0, 1, 4]));
    for state in 0..states as usize {
        let way = rng.below(2) as u8;
        for read in 0..symbols as usize {
            let any = rng.below(symbols) as u8;
            let next = rng.below(states) as u16;
            let step = rng.pick(&[0, 1, 0, 1, 0, 1, 2]);
            match read {
                0 if rng.below(16) < strays => entries.push((state, read, any, step, next)),
                0 => {
                    let write = if rng.once_in(12) { any } else { 0 };
                    entries.push((state, read, write, way, state as u16));
                }
                _ if rng.once_in(24) => {}
                _ => {
                    let write = if rng.below(16) < erase { 0 } else { rng.between(1, symbols - 1) as u8 };
                    entries.push((state, read, write, step, next));
                }
            }
        }
    }
    let len = rng.between(0, 80) as usize;
    let sparse = rng.pick(&[2, 6, 30]);
    let mut word: Vec<u8> = (0..len).map(|_| if rng.once_in(sparse) { rng.below(symbols) as u8 } else { 0 }).collect();
    if len > 0 && rng.once_in(2) {
        word[0] = 1;
        word[len - 1] = 1;
    }
    (one_tape(symbols, states, &entries), word)
}

/// A machine in the usual short form, `Z` being a further state with no entries.
pub fn standard(text: &str) -> Rc<Subject> {
    let rows: Vec<&[u8]> = text.split('_').map(str::as_bytes).collect();
    let symbols = rows[0].len() / 3;
    let mut entries = Vec::new();
    for (state, row) in rows.iter().enumerate() {
        for (read, part) in row.chunks(3).enumerate() {
            if part[0] == b'-' {
                continue;
            }
            let next = if part[2] == b'Z' { rows.len() as u16 } else { u16::from(part[2] - b'A') };
            let step = if part[1] == b'L' { 0 } else { 1 };
            entries.push((state, read, part[0] - b'0', step, next));
        }
    }
    one_tape(symbols as u64, rows.len() as u64 + 1, &entries)
}

/// Three tapes: goes back and forth over a word of ones, copies it and flips the third tape.
pub fn three_tapes() -> Rc<Subject> {
    let sizes = Sizes { tapes: 3, symbols: 2, states: 2, start: 0 };
    let mut table = Vec::new();
    for state in 0..2_u16 {
        for read in 0..8_u8 {
            let [a, _, c] = [read & 1, read >> 1 & 1, read >> 2 & 1];
            let (next, way) = if a == 1 { (state, state) } else { (1 - state, 1 - state) };
            let step = if way == 0 { 1 } else { 0 };
            table.extend(entry(next, [a, a, 1 - c], [step; 3]));
        }
    }
    Subject::new(sizes, table)
}

/// A random word, now and then with a symbol outside the alphabet.
pub fn word(rng: &mut Rng, symbols: u64) -> Vec<u8> {
    let len = rng.pick(&[0, 0, 1, 2, 3, 8, 20, 40, 150]);
    let len = rng.between(len / 2, len);
    let mut word: Vec<u8> = (0..len).map(|_| rng.below(symbols) as u8).collect();
    if rng.once_in(4) {
        word.iter_mut().for_each(|a| *a = if *a % 3 > 0 { 0 } else { *a });
    }
    if symbols < 256 && len > 0 && rng.once_in(16) {
        for _ in 0..rng.between(1, 3) {
            word[rng.below(len) as usize] = rng.between(symbols, 255) as u8;
        }
    }
    word
}

/// Lengths of cells buffers for a word; seldom too short.
pub fn room(rng: &mut Rng, tapes: u64, word: usize) -> [usize; 3] {
    std::array::from_fn(|i| {
        let least = if i == 0 { 32 + word } else { 32 };
        if i as u64 >= tapes {
            return rng.pick(&[0, 0, 1, 31, 40]);
        }
        match rng.below(12) {
            0 => least,
            1 => 2 * least - 1,
            2 => 2 * least,
            3 => 4 * least - 1,
            4 => 4 * least,
            5 if rng.once_in(8) => least - 1,
            5 if rng.once_in(8) => rng.below(least as u64) as usize,
            5 | 6 => least + rng.below(100) as usize,
            7 => 16 * least + rng.below(1000) as usize,
            8 if rng.once_in(4) => 20_000,
            _ => least + rng.below(1000) as usize,
        }
    })
}

/// A stop rule.
pub fn rule(rng: &mut Rng, states: u64) -> u64 {
    match rng.below(8) {
        0..=3 => NO_RULE,
        4 => rng.pick(&[65_537, 65_535, 1 << 32, (1 << 32) + 1, u64::MAX]),
        5 => states,
        _ => rng.below(states),
    }
}

/// Fuel for an engine with these steps; seldom too much.
pub fn fuel(rng: &mut Rng, steps: u64) -> u64 {
    let left = MAX_STEPS.saturating_sub(steps);
    match rng.below(40) {
        0 => left,
        1 => left.saturating_add(1),
        2 => rng.pick(&[MAX_STEPS, MAX_STEPS + 1, u64::MAX, u64::MAX - steps, (1_u64 << 63).wrapping_sub(steps)]),
        3..=7 => 0,
        8..=12 => 1,
        13..=20 => rng.below(20),
        21..=32 => rng.below(400),
        33..=38 => rng.below(4000),
        _ => rng.below(30_000),
    }
}

/// Changed packed words, seldom the right ones.
pub fn wrong_words(rng: &mut Rng) -> Words {
    match rng.below(8) {
        0 => Words::Shorter,
        1 => Words::Longer,
        2 => Words::Empty,
        3 => Words::Changed(0, 1 << rng.below(64)),
        4 => Words::Changed(usize::MAX, 1 << rng.below(64)), // seldom the last one, but any
        _ => Words::Changed(rng.next() as usize, 1 << rng.below(64)),
    }
}

/// An entry to look up: mostly one of the table's, else any state and symbols.
pub fn lookup(rng: &mut Rng, sizes: &Sizes) -> Act {
    let state = if rng.once_in(4) { rng.next() as u16 } else { rng.below(sizes.states) as u16 };
    let read = std::array::from_fn(|i| match rng.below(8) {
        0 => rng.next() as u8,
        1 => (sizes.symbols - 1) as u8,
        _ if i as u64 >= sizes.tapes => 0,
        _ => rng.below(sizes.symbols) as u8,
    });
    Act::Lookup { state, read }
}

/// So many random calls. `steps` is about the step that the engine has reached.
pub fn acts(rng: &mut Rng, sizes: &Sizes, count: u64, steps: u64) -> Vec<Act> {
    let one = |rng: &mut Rng| {
        let (rule, fuel) = (rule(rng, sizes.states), fuel(rng, steps));
        match rng.below(32) {
            0 => Act::Check,
            1 => Act::Pack { more: rng.pick(&[-1, 0, 1, 7]) },
            2 => Act::Fast { rule, fuel, words: wrong_words(rng) },
            4 => lookup(rng, sizes),
            3 => Act::Ask(Question::Count { tape: rng.pick(&[sizes.tapes, 3, 256, 1 << 32, u64::MAX]) }),
            5..=12 => Act::Step,
            13..=20 if sizes.tapes == 1 => Act::Fast { rule, fuel, words: Words::Right },
            13 => Act::Fast { rule, fuel, words: Words::Right },
            _ => Act::Run { rule, fuel },
        }
    };
    (0..count).map(|_| one(rng)).collect()
}

/// An engine value that fits, set from outside.
pub fn fitting(rng: &mut Rng, sizes: &Sizes) -> Begin {
    let mut engine: Engine = std::array::from_fn(|_| rng.next());
    engine[0] = match rng.below(8) {
        0 => 0,
        1 => MAX_STEPS,
        2 => MAX_STEPS - 1,
        3 => MAX_STEPS - rng.below(100),
        4 => rng.below(MAX_STEPS),
        _ => rng.below(1000),
    };
    tapes_of(rng, sizes, engine, |rng| match rng.below(4) {
        0 => 32,
        1 => rng.between(32, 40),
        _ => rng.between(32, 200),
    })
}

/// An engine value that fits, set from outside, with tapes of up to so many cells, thousands mostly.
pub fn long_value(rng: &mut Rng, sizes: &Sizes, most: u64) -> Begin {
    let mut engine: Engine = std::array::from_fn(|_| rng.next());
    let steps = if rng.once_in(3) { MAX_STEPS } else { 10_000 };
    engine[0] = rng.below(steps);
    tapes_of(rng, sizes, engine, |rng| if rng.once_in(6) { rng.log(32, most) } else { rng.between(1000, most) })
}

/// A value with these steps and tapes of the lengths that `len` draws.
fn tapes_of(rng: &mut Rng, sizes: &Sizes, mut engine: Engine, len: impl Fn(&mut Rng) -> u64) -> Begin {
    let cells = std::array::from_fn(|t| {
        if t as u64 >= sizes.tapes {
            return (0..rng.pick(&[0, 5, 33])).map(|_| rng.next() as u8).collect();
        }
        let len = len(rng);
        let room = match rng.below(5) {
            0 => len,
            1 => 2 * len - 1,
            2 => 2 * len,
            3 => len + rng.below(len),
            _ => len + rng.below(2000),
        };
        let edge = |rng: &mut Rng| match rng.below(6) {
            0 => 0,
            1 => len - 1,
            2 => 1,
            3 => len - 2,
            _ => rng.below(len),
        };
        let (origin, head) = (edge(rng), edge(rng));
        let lowest = if rng.once_in(3) { head } else { rng.between(0, head) };
        let highest = if rng.once_in(3) { head } else { rng.between(head, len - 1) };
        engine[fields(t)..fields(t + 1)].copy_from_slice(&[len, origin, head, lowest, highest]);
        cells(rng, sizes.symbols, len as usize, room as usize)
    });
    Begin::Outside { state: rng.below(sizes.states) as u16, engine, cells }
}

/// A cells buffer: `len` symbols, then dirt up to `room`.
fn cells(rng: &mut Rng, symbols: u64, len: usize, room: usize) -> Vec<u8> {
    let mut cells = vec![0; len];
    let mut put = |rng: &mut Rng, i: usize| cells[i] = rng.below(symbols) as u8;
    match rng.below(6) {
        0 => {}
        1 => (0..len).for_each(|i| put(rng, i)),
        2 => put(rng, 0),
        3 => put(rng, len - 1),
        4 => {
            let at = rng.below(len as u64) as usize;
            put(rng, at);
        }
        _ => (0..len).for_each(|i| {
            if rng.once_in(8) {
                put(rng, i);
            }
        }),
    }
    cells.resize_with(room, || rng.next() as u8);
    cells
}

/// Breaks a value that fits in one or two places; now and then it still fits.
pub fn break_value(rng: &mut Rng, sizes: &Sizes, begin: &mut Begin) {
    let Begin::Outside { state, engine, cells } = begin else {
        return;
    };
    for _ in 0..rng.pick(&[1, 1, 1, 2]) {
        let t = rng.below(sizes.tapes) as usize;
        let f = fields(t);
        let [len, _, head, ..] = crate::law::tape_fields(engine, t);
        let room = cells[t].len() as u64;
        let (past_len, past_head) = (len.wrapping_add(1), head.wrapping_add(1));
        // The same in the lower half of its bits, or all but the highest.
        let low_half = |x: u64| x.wrapping_add(1 << 32);
        let low_bits = |x: u64| x.wrapping_add(1 << 63);
        match rng.below(13) {
            0 => *state = rng.between(sizes.states.min(65_535), 65_535) as u16,
            1 => engine[0] = rng.pick(&[MAX_STEPS + 1, 1 << 63, u64::MAX, MAX_STEPS + rng.0 % 1000]),
            2 => engine[f] = rng.pick(&[0, 1, 31, room + 1, room + 2, u64::MAX, low_half(len), low_bits(len)]),
            3 => engine[f + 1] = rng.pick(&[len, past_len, u64::MAX, low_half(0), low_bits(5)]),
            4 => engine[f + 2] = rng.pick(&[len, past_len, u64::MAX, low_half(head), low_bits(head)]),
            5 => engine[f + 3] = rng.pick(&[past_head, len, u64::MAX, low_half(head)]),
            6 => engine[f + 4] = rng.pick(&[head.saturating_sub(1), len, past_len, u64::MAX, low_half(head)]),
            7 => engine[f..f + 5].fill(0),
            8 => engine[f + 2] = rng.below(len), // perhaps outside lowest to highest
            9 => {
                let len = rng.below(room.max(1));
                cells[t].truncate(len as usize);
            }
            _ if sizes.symbols < 256 && !cells[t].is_empty() => {
                let end = len.clamp(1, room);
                let at = match rng.below(4) {
                    0 => 0,
                    1 => end - 1,
                    2 => end.min(room - 1), // the first one past the length, if there is one
                    _ => rng.below(end),
                };
                let symbols = sizes.symbols;
                cells[t][at as usize] = rng.pick(&[symbols, symbols, 255]).min(255) as u8;
            }
            _ => {}
        }
    }
}

/// Positions worth asking for, from the tape's five numbers.
fn positions(fields: &[u64; 5]) -> [i64; 32] {
    let [len, origin, head, lowest, highest] = fields.map(|x| x as i64);
    let at = |index: i64| index.wrapping_sub(origin);
    let last = i64::MAX.wrapping_sub(origin);
    #[rustfmt::skip]
    let all = [
        at(-2), at(-1), at(0), at(1), at(15), at(16), at(17),
        at(len.wrapping_sub(2)), at(len.wrapping_sub(1)), at(len), at(len.wrapping_add(1)),
        at(head.wrapping_sub(1)), at(head), at(head.wrapping_add(1)), at(lowest), at(highest),
        0, 1, -1, 1 << 31, -1 << 31, 1 << 32, -1 << 32, 1 << 62,
        i64::MIN, i64::MIN + 1, i64::MIN.wrapping_add(origin), i64::MAX, i64::MAX - 1,
        last.wrapping_sub(1), last, last.wrapping_add(1), // beyond `last` the Rust's index sum overflows
    ];
    all
}

/// Windows worth asking for.
fn windows(fields: &[u64; 5]) -> [(i64, usize); 10] {
    let [len, origin, head, ..] = fields.map(|x| x as i64);
    let at = |index: i64| index.wrapping_sub(origin);
    let whole = (len.clamp(0, 1 << 12)) as usize;
    [
        (at(-3), whole + 6),
        (at(-3), 2),
        (at(-1), 2),
        (at(len.wrapping_sub(1)), 4),
        (at(len), 3),
        (at(0), 0),
        (at(head), 1),
        (i64::MIN, 5),
        (i64::MAX - 2, 6),
        (i64::MAX.wrapping_sub(origin), 40),
    ]
}

/// All questions about a tape with these five numbers.
pub fn questions(tape: usize, fields: &[u64; 5]) -> Vec<Question> {
    let tape = tape as u64;
    let mut all = vec![Question::NonBlank { tape }, Question::Count { tape }];
    for at in positions(fields) {
        all.push(Question::Get { tape, at });
        all.extend([0, 1, 2].map(|dir| Question::Find { tape, from: at, dir }));
    }
    all.extend(windows(fields).map(|(from, len)| Question::Window { tape, from, len }));
    all
}

/// One question about a tape with these five numbers.
pub fn question(rng: &mut Rng, tape: usize, fields: &[u64; 5]) -> Question {
    let tape = tape as u64;
    let len = (fields[0] as i64).clamp(1, 1 << 20);
    let position = |rng: &mut Rng| match rng.below(3) {
        0 => (rng.below(len as u64 + 4) as i64 - 2).wrapping_sub(fields[1] as i64),
        _ => rng.pick(&positions(fields)),
    };
    match rng.below(8) {
        0 => Question::NonBlank { tape },
        1 => Question::Count { tape },
        2 => {
            let (from, len) = rng.pick(&windows(fields));
            Question::Window { tape, from, len }
        }
        3 => Question::Window { tape, from: position(rng), len: rng.below(40) as usize },
        4 | 5 => Question::Get { tape, at: position(rng) },
        _ => Question::Find { tape, from: position(rng), dir: rng.below(3) as u8 },
    }
}
