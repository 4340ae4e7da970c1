//! A stand-in for the port's library, written from document 01 alone, so that the harness can run
//! without it (feature `mock`). It is simple, not fast.
//!
//! The environment variable `MOCK_FAULT` puts one of the faults of `faults.rs` into it: the harness
//! must then find a difference (`mutants.sh` tries them all).

use std::cell::Cell;

pub(crate) use crate::faults::fault;

/// A refusal: its number, and its place where it has one.
pub(crate) struct No(pub(crate) u8, pub(crate) Option<u64>);

pub(crate) type Answer<T> = Result<T, No>;

pub(crate) fn refuse<T>(number: u8) -> Answer<T> {
    Err(No(number, None))
}

pub(crate) const L: u8 = 0;
pub(crate) const R: u8 = 1;
pub(crate) const N: u8 = 2;

/// A table that passed its check.
pub(crate) struct Machine<'a> {
    pub(crate) tapes: usize,
    pub(crate) symbols: usize,
    pub(crate) states: usize,
    pub(crate) start: u16,
    pub(crate) table: &'a [u8],
}

/// A defined entry.
#[derive(Clone, Copy)]
pub(crate) struct Entry {
    pub(crate) next: u16,
    pub(crate) write: [u8; 3],
    pub(crate) moves: [u8; 3],
}

pub(crate) fn accept(sizes: [u64; 4], table: &[u8]) -> Answer<Machine<'_>> {
    let [mut tapes, mut symbols, mut states, mut start] = sizes;
    if fault(13) {
        (tapes, symbols) = (tapes & 0xffff_ffff, symbols & 0xffff_ffff);
        (states, start) = (states & 0xffff_ffff, start & 0xffff_ffff);
    }
    if tapes == 0 || tapes > 3 {
        return refuse(1);
    }
    if symbols == 0 || symbols > 256 {
        return refuse(2);
    }
    if states == 0 || states > 65_536 {
        return refuse(3);
    }
    if start >= states || fault(55) && table.iter().all(|&b| b == 0) {
        return refuse(4);
    }
    let mut bytes = 8 * states;
    for _ in 0..tapes {
        bytes *= symbols;
    }
    if table.len() as u64 != bytes {
        return refuse(5);
    }
    let m = Machine {
        tapes: tapes as usize,
        symbols: symbols as usize,
        states: states as usize,
        start: start as u16,
        table,
    };
    let mut first = None;
    for i in 0..table.len() / 8 {
        if !m.good(&table[8 * i..8 * i + 8]) {
            first = Some(i as u64);
            if !fault(19) {
                break;
            }
        }
    }
    match first {
        Some(i) => Err(No(6, Some(i))),
        None => Ok(m),
    }
}

impl Machine<'_> {
    /// Whether an entry keeps to the layout and its numbers to their ranges.
    fn good(&self, e: &[u8]) -> bool {
        match e[0] {
            0 => {
                if fault(41) {
                    return e[3..].iter().all(|&b| b == 0);
                }
                return e == [0; 8];
            }
            1 => {}
            _ => return false,
        }
        if usize::from(e[1]) + 256 * usize::from(e[2]) >= self.states {
            return false;
        }
        for i in 0..3 {
            let most = if i < self.tapes { self.symbols - 1 } else { 0 };
            if usize::from(e[3 + i]) > most {
                return false;
            }
        }
        // The moves of lacking tapes are all N: what is above the present ones is 2 or 2 + 3 * 2.
        let lacking = match self.tapes {
            1 => e[6] / 3 == 8,
            2 => e[6] / 9 == 2,
            _ => e[6] < 27,
        };
        (lacking || fault(33) && e[6] < 27) && (e[7] == 0 || fault(32))
    }

    /// The entry for a state and the symbols read.
    pub(crate) fn entry(&self, state: u16, read: [u8; 3]) -> Option<Entry> {
        let mut place = 0;
        for i in (0..self.tapes).rev() {
            place = place * self.symbols + usize::from(read[i]);
        }
        if fault(152) && self.tapes == 3 && self.symbols > 16 {
            place = usize::from(read[0]) + self.symbols * usize::from(read[1]);
        }
        let stride = self.symbols.pow(self.tapes as u32);
        let at = 8 * (usize::from(state) * stride + place);
        let e = self.table.get(at..at + 8)?;
        (e[0] == 1).then(|| Entry {
            next: u16::from(e[1]) + 256 * u16::from(e[2]),
            write: [e[3], e[4], e[5]],
            moves: [e[6] % 3, e[6] / 3 % 3, e[6] / 9],
        })
    }

    /// The packed word of entry `i`, of one tape.
    fn word(&self, i: usize) -> u64 {
        let e = &self.table[8 * i..8 * i + 8];
        if e[0] == 0 {
            return if fault(16) { 0 } else { 3 };
        }
        let next = u64::from(e[1]) + 256 * u64::from(e[2]);
        let mut row = next * self.symbols as u64;
        if fault(37) {
            row %= 65_536;
        }
        u64::from(e[6] % 3) + (u64::from(e[3]) << 8) + (next << 16) + (row << 32)
    }
}

/// The action that any word stands for.
fn action(word: u64) -> Entry {
    let move0 = match word & 0xff {
        0 => L,
        1 => R,
        3 if fault(125) => R,
        _ => N,
    };
    let lacking = if fault(126) { [word as u8; 2] } else { [0; 2] };
    let write = [(word >> 8) as u8, lacking[0], lacking[1]];
    Entry { next: (word >> 16) as u16, write, moves: [move0, N, N] }
}

/// The entry that a packed word stands for.
fn unpack(word: u64) -> Option<Entry> {
    let undefined = word == 3 || fault(127) && word & 0xff == 3;
    (!undefined).then(|| action(word))
}

/// The word of an action, with that stride.
fn packed_new(write: u8, dir: u8, next: u16, stride: u64) -> u64 {
    let row = match u64::from(next).checked_mul(stride) {
        None if fault(128) => u64::from(next).wrapping_mul(stride),
        None => return 3,
        Some(row) => row,
    };
    if row >= 1 << 32 && !(fault(129) && row == 1 << 32) {
        return 3;
    }
    let dir = if fault(130) { dir } else { dir.min(2) };
    u64::from(dir) + (u64::from(write) << 8) + (u64::from(next) << 16) + (row << 32)
}

/// An entry in numbers.
fn tell_entry(entry: Option<Entry>, out: &mut [u64; 8]) {
    out[0] = u64::from(entry.is_some());
    if let Some(e) = entry {
        out[1] = u64::from(e.next);
        for i in 0..3 {
            (out[2 + i], out[5 + i]) = (u64::from(e.write[i]), u64::from(e.moves[i]));
        }
    } else if fault(131) {
        out[1..].fill(0);
    }
}

/// The entry for a state and three symbols, whatever they are.
fn lookup(sizes: [u64; 4], table: &[u8], state: u16, read: [u8; 3]) -> Answer<Option<Entry>> {
    let m = accept(sizes, table)?;
    if fault(132) && (usize::from(state) >= m.states || usize::from(read[0]) >= m.symbols) {
        return Ok(None);
    }
    let [a0, a1, a2] = read.map(usize::from);
    let (k, stride) = (m.symbols, m.symbols.pow(m.tapes as u32));
    let number = match fault(133) {
        true => usize::from(state) * stride + a0 * k * k + a1 * k + a2,
        false => usize::from(state) * stride + a0 + k * a1 + k * k * a2,
    };
    let last = if fault(134) { table.len() / 8 - 1 } else { table.len() / 8 };
    let Some(e) = table.get(8 * number..8 * number + 8).filter(|e| e[0] == 1 && number < last) else {
        return Ok(None);
    };
    let moves = [e[6] % 3, e[6] / 3 % 3, e[6] / 9];
    Ok(Some(Entry { next: u16::from_le_bytes([e[1], e[2]]), write: [e[3], e[4], e[5]], moves }))
}

/// A glyph's symbol.
fn symbol_for(glyphs: &[u32], glyph: u32) -> Option<u8> {
    let most = if fault(135) { 255 } else { 256 };
    let found = match fault(136) {
        true => glyphs.iter().take(most).rposition(|&g| g == glyph),
        false => glyphs.iter().take(most).position(|&g| g == glyph),
    };
    found.map(|i| i as u8)
}

/// Whether a symbol is flagged as input.
fn is_input(flags: &[u8], symbol: u8) -> bool {
    match flags.get(usize::from(symbol)) {
        None => fault(137),
        Some(&flag) => flag != 0 && !(fault(138) && flag == 2) || fault(139) && symbol == 0,
    }
}

/// One tape's numbers; the cells are kept apart.
#[derive(Clone, Copy, Default)]
pub(crate) struct Tape {
    len: usize,
    origin: usize,
    head: usize,
    low: usize,
    high: usize,
}

impl Tape {
    /// Whether a move would leave the cells in use.
    fn leaves(&self, d: u8) -> bool {
        d == L && self.head == 0 || d == R && self.head + 1 == self.len
    }

    /// The new length after growth.
    fn grown(&self) -> usize {
        if fault(46) { self.len + 32 } else { 2 * self.len }
    }

    fn full(&self, d: u8, room: usize) -> bool {
        self.leaves(d) && (self.grown() > room || fault(9) && self.grown() == room)
    }

    /// Moves, with room for it.
    fn shift(&mut self, d: u8, cells: &mut [u8]) {
        let grows = self.leaves(d);
        let len = self.len;
        if grows {
            self.len = self.grown();
            let extra = self.len - len;
            if d == L {
                let moved = if fault(151) { len.min(4096) } else { len };
                cells.copy_within(0..moved, extra);
                cells[..extra].fill(0);
                self.origin += extra;
                self.head += extra;
                if !fault(40) {
                    self.low += extra;
                }
                if !fault(8) {
                    self.high += extra;
                }
            } else if !fault(7) {
                cells[len..len + extra].fill(0);
            }
        }
        match d {
            L => self.head -= 1,
            R => self.head += 1,
            _ => {}
        }
        self.low = self.low.min(self.head);
        if !(grows && fault(21)) {
            self.high = self.high.max(self.head);
        }
    }

    /// The index of a position, where there is one.
    fn index(&self, at: i64) -> Option<usize> {
        let index = i128::from(at) + self.origin as i128;
        (0 <= index && index < self.len as i128).then_some(index as usize)
    }

    /// The position of an index, raised by 2^63.
    fn raised(&self, index: usize) -> u64 {
        (1 << 63) + index as u64 - self.origin as u64
    }
}

/// An engine that fits.
pub(crate) struct Engine {
    pub(crate) state: u16,
    pub(crate) steps: u64,
    tapes: [Tape; 3],
    /// Positions of non-blank cells seen left and right (only for a fault).
    seen: [Cell<Option<i64>>; 2],
}

/// How a run ended.
pub(crate) enum Outcome {
    Halted,
    Fuel,
    Stay,
    Chain(u8),
    Stopped,
    Full,
}

impl Engine {
    /// Takes an engine value that fits, or refuses it.
    pub(crate) fn load(m: &Machine, state: u16, value: &[u64; 16], cells: [&[u8]; 3]) -> Answer<Engine> {
        for c in &cells[..m.tapes] {
            if c.len() > 1 << 30 && !fault(42) {
                return refuse(11);
            }
        }
        let states = if fault(27) { m.states & 0xffff } else { m.states };
        if usize::from(state) >= states {
            return refuse(12);
        }
        if value[0] > 1 << 62 || fault(28) && value[0] == 1 << 62 {
            return refuse(12);
        }
        let mut tapes = [Tape::default(); 3];
        for i in 0..m.tapes {
            let v = &value[1 + 5 * i..6 + 5 * i];
            let (len, origin, head, low, high) = (v[0], v[1], v[2], v[3], v[4]);
            if len < 32 || len > cells[i].len() as u64 {
                return refuse(12);
            }
            if head >= len && !(fault(47) && head == len && high == len) {
                return refuse(12);
            }
            if origin >= len && !(fault(50) && origin == len) {
                return refuse(12);
            }
            if low > head || head > high || high >= len && !fault(47) {
                return refuse(12);
            }
            let tested = if fault(12) { cells[i].len() } else { len as usize };
            for &c in &cells[i][..tested] {
                if usize::from(c) >= m.symbols {
                    return refuse(12);
                }
            }
            tapes[i] = Tape {
                len: len as usize,
                origin: origin as usize,
                head: (head as usize).min(len as usize - 1),
                low: low as usize,
                high: high as usize,
            };
        }
        if fault(29) && value[1 + 5 * m.tapes..].iter().any(|&v| v != 0) {
            return refuse(12);
        }
        Ok(Engine { state, steps: value[0], tapes, seen: Default::default() })
    }

    /// Hands the value back, fields of lacking tapes left alone.
    pub(crate) fn store(&self, m: &Machine, state: &mut u16, value: &mut [u64; 16]) {
        *state = self.state;
        value[0] = self.steps;
        for i in 0..m.tapes {
            let t = self.tapes[i];
            for (j, v) in [t.len, t.origin, t.head, t.low, t.high].into_iter().enumerate() {
                value[1 + 5 * i + j] = v as u64;
            }
        }
    }

    fn read(&self, m: &Machine, cells: &[&mut [u8]; 3]) -> [u8; 3] {
        let mut read = [0; 3];
        for i in 0..m.tapes {
            read[i] = cells[i][self.tapes[i].head];
        }
        read
    }

    /// Whether the next step needs more room than there is.
    fn full(&self, m: &Machine, e: &Entry, cells: &[&mut [u8]; 3]) -> bool {
        (0..m.tapes).any(|i| self.tapes[i].full(e.moves[i], cells[i].len()))
    }

    /// The never test: the pattern, if there is one.
    fn never(&self, m: &Machine, e: &Entry, read: [u8; 3], cells: &[&mut [u8]; 3]) -> Option<Outcome> {
        if e.next != self.state {
            return None;
        }
        let looked = if fault(23) { 1 } else { m.tapes };
        if (0..looked).all(|i| e.moves[i] == N && e.write[i] == read[i]) {
            return Some(Outcome::Stay);
        }
        if m.tapes > 1 && !fault(4) || read[0] != 0 || fault(5) && e.write[0] != 0 {
            return None;
        }
        let t = self.tapes[0];
        if fault(51) && e.moves[0] != N {
            let here = t.head as i64 - t.origin as i64;
            let seen = &self.seen[usize::from(e.moves[0])];
            let beyond = |p: i64| if e.moves[0] == L { p < here } else { p > here };
            if seen.get().is_some_and(beyond) {
                return None;
            }
            let from = if e.moves[0] == L { here - 1 } else { here + 1 };
            seen.set(find(t, &cells[0][..t.len], from, e.moves[0]).map(|i| i as i64 - t.origin as i64));
        }
        let short = usize::from(fault(6));
        let end = if fault(45) { t.high + 1 } else { t.len };
        let blank = |part: &[u8]| part.iter().all(|&c| c == 0);
        let beyond = match e.moves[0] {
            L => cells[0][short.min(t.head)..t.head].iter().rev().all(|&c| c == 0),
            R => blank(&cells[0][t.head + 1..end.max(t.head + 1 + short) - short]),
            _ => false,
        };
        beyond.then_some(Outcome::Chain(if fault(35) { R } else { e.moves[0] }))
    }

    /// Makes the step of an entry, with room for it.
    fn make(&mut self, m: &Machine, e: &Entry, cells: &mut [&mut [u8]; 3]) {
        for i in 0..m.tapes {
            cells[i][self.tapes[i].head] = e.write[i];
            self.tapes[i].shift(e.moves[i], cells[i]);
        }
        self.state = e.next;
        self.steps += 1;
    }

    /// Runs with the entries that `entry` finds; `proves` is whether the never test is made.
    pub(crate) fn run(
        &mut self,
        m: &Machine,
        entry: impl Fn(u16, [u8; 3]) -> Option<Entry>,
        cells: &mut [&mut [u8]; 3],
        (rule, fuel): (u64, u64),
        proves: bool,
    ) -> Outcome {
        let rule = if fault(49) { rule % 65_536 } else { rule };
        let mut left = fuel;
        loop {
            let read = self.read(m, cells);
            if fault(1) && left == 0 {
                return Outcome::Fuel;
            }
            let Some(e) = entry(self.state, read) else {
                return Outcome::Halted;
            };
            if fault(2) && left == 0 {
                return Outcome::Fuel;
            }
            if proves && let Some(never) = self.never(m, &e, read, cells) {
                return never;
            }
            if fault(3) && self.full(m, &e, cells) {
                return Outcome::Full;
            }
            if left == 0 {
                return Outcome::Fuel;
            }
            if self.full(m, &e, cells) {
                if fault(18) {
                    for i in 0..m.tapes {
                        if self.tapes[i].full(e.moves[i], cells[i].len()) {
                            break;
                        }
                        cells[i][self.tapes[i].head] = e.write[i];
                    }
                }
                if fault(44) && self.steps > 0 {
                    self.steps -= 1;
                }
                return Outcome::Full;
            }
            let from = if fault(10) { e.next } else { self.state };
            self.make(m, &e, cells);
            left -= 1;
            if u64::from(from) == rule && !(fault(38) && left > 0 && m.tapes == 1) {
                return Outcome::Stopped;
            }
        }
    }
}

fn check(sizes: [u64; 4], table: &[u8]) -> Answer<()> {
    accept(sizes, table).map(|_| ())
}

fn pack(sizes: [u64; 4], table: &[u8], words: &mut [u64]) -> Answer<()> {
    let m = accept(sizes, table)?;
    if m.tapes > 1 {
        return refuse(7);
    }
    let count = table.len() / 8;
    if words.len() < count {
        return refuse(18);
    }
    for (i, word) in words[..count].iter_mut().enumerate() {
        *word = m.word(i);
    }
    if fault(36) {
        words[count..].fill(3);
    }
    Ok(())
}

fn sim_new(
    sizes: [u64; 4],
    table: &[u8],
    word: &[u8],
    cells: [&mut [u8]; 3],
    state: &mut u16,
    value: &mut [u64; 16],
) -> Answer<()> {
    let m = accept(sizes, table)?;
    if word.len() > 1_048_576 {
        return refuse(9);
    }
    let outside = |&a: &u8| usize::from(a) >= m.symbols;
    let place = if fault(25) { word.iter().rposition(outside) } else { word.iter().position(outside) };
    let place = || match place {
        Some(i) => Err(No(10, Some(i as u64))),
        None => Ok(()),
    };
    if !fault(31) {
        place()?;
    }
    for (i, c) in cells.iter().enumerate().take(m.tapes) {
        let needed = if i == 0 { 32 + word.len() } else { 32 };
        let short = if fault(26) { needed - 1 } else { needed };
        if c.len() < short || c.len() > 1 << 30 && !fault(42) {
            return refuse(11);
        }
    }
    place()?;
    let mut tapes = [Tape::default(); 3];
    for (i, c) in cells.into_iter().enumerate().take(m.tapes) {
        let word = if i == 0 { word } else { &[] };
        let len = (32 + word.len()).min(c.len());
        if fault(34) {
            c.fill(0);
        }
        c[..len].fill(0);
        c[16..16 + word.len()].copy_from_slice(word);
        tapes[i] = Tape { len, origin: 16, head: 16, low: 16, high: 16 };
    }
    Engine { state: m.start, steps: 0, tapes, seen: Default::default() }.store(&m, state, value);
    Ok(())
}

pub(crate) fn shared<'a>(cells: &'a [&mut [u8]; 3]) -> [&'a [u8]; 3] {
    [cells[0], cells[1], cells[2]]
}

/// Refusal 13.
fn enough(steps: u64, fuel: u64) -> Answer<()> {
    let sum = if fault(20) { u128::from(steps.wrapping_add(fuel)) } else { u128::from(steps) + u128::from(fuel) };
    if sum > 1 << 62 { refuse(13) } else { Ok(()) }
}

fn sim_step(
    sizes: [u64; 4],
    table: &[u8],
    mut cells: [&mut [u8]; 3],
    state: &mut u16,
    value: &mut [u64; 16],
    out: &mut [u64; 8],
) -> Answer<()> {
    let m = accept(sizes, table)?;
    let mut engine = Engine::load(&m, *state, value, shared(&cells))?;
    enough(engine.steps, 1)?;
    let read = engine.read(&m, &cells);
    out[0] = match m.entry(engine.state, read) {
        None => 1,
        Some(e) if fault(22) && engine.never(&m, &e, read, &cells).is_some() => 1,
        Some(e) if engine.full(&m, &e, &cells) => 2,
        Some(e) => {
            engine.make(&m, &e, &mut cells);
            0
        }
    };
    engine.store(&m, state, value);
    Ok(())
}

#[expect(clippy::too_many_arguments)]
fn sim_run(
    sizes: [u64; 4],
    table: &[u8],
    words: Option<&[u64]>,
    mut cells: [&mut [u8]; 3],
    state: &mut u16,
    value: &mut [u64; 16],
    (rule, fuel): (u64, u64),
    out: &mut [u64; 8],
) -> Answer<()> {
    let m = accept(sizes, table)?;
    let count = table.len() / 8;
    if let Some(words) = words {
        let longer = fault(17) && words.len() > count;
        let same = m.tapes == 1 && (words.len() == count || longer) && (0..count).all(|i| words[i] == m.word(i));
        if !same {
            if fault(30) {
                Engine::load(&m, *state, value, shared(&cells))?;
            }
            return refuse(7);
        }
    }
    let mut engine = Engine::load(&m, *state, value, shared(&cells))?;
    if fault(11) && enough(engine.steps, fuel).is_err() {
        engine.run(&m, |q, a| m.entry(q, a), &mut cells, (rule, 1), true);
    }
    enough(engine.steps, fuel)?;
    let outcome = match words {
        None => engine.run(&m, |q, a| m.entry(q, a), &mut cells, (rule, fuel), true),
        Some(words) => {
            let first = engine.state;
            let begun = Cell::new(false);
            let entry = |q: u16, a: [u8; 3]| {
                let row = if fault(53) && q == first && !begun.replace(true) { 0 } else { usize::from(q) };
                unpack(words[row * m.symbols + usize::from(a[0])])
            };
            let was = engine.tapes[0];
            let outcome = engine.run(&m, entry, &mut cells, (rule, fuel), true);
            if fault(52) && matches!(outcome, Outcome::Fuel) {
                engine.tapes[0].low = was.low.min(engine.tapes[0].head);
                engine.tapes[0].high = was.high.max(engine.tapes[0].head);
            }
            outcome
        }
    };
    tell(&outcome, engine.state, engine.steps, out);
    engine.store(&m, state, value);
    Ok(())
}

/// An outcome in numbers.
pub(crate) fn tell(outcome: &Outcome, state: u16, steps: u64, out: &mut [u64; 8]) {
    let state = u64::from(state);
    let (number, parts) = match *outcome {
        Outcome::Halted => (0, [state, 0, 0]),
        Outcome::Fuel => (1, [0; 3]),
        Outcome::Stay => (2, [state, 0, 0]),
        Outcome::Chain(d) => (2, [state, 1, u64::from(d)]),
        Outcome::Stopped => (3, [0; 3]),
        Outcome::Full => (4, [0; 3]),
    };
    out[0] = number;
    out[1] = steps;
    out[2..5].copy_from_slice(&parts);
}

/// What a question is about: the tape, its cells and the machine's number of symbols.
fn question<'a>(
    sizes: [u64; 4],
    table: &[u8],
    cells: [&'a [u8]; 3],
    state: u16,
    value: &[u64; 16],
    tape: u64,
    out: &mut [u64; 8],
) -> Answer<(Tape, &'a [u8])> {
    let m = accept(sizes, table)?;
    let loaded = Engine::load(&m, state, value, cells);
    if fault(43) && loaded.is_err() {
        out[1] = 0;
    }
    let engine = loaded?;
    let tape = if fault(48) { tape & 0xff } else { tape };
    if tape >= m.tapes as u64 {
        return refuse(12);
    }
    let t = engine.tapes[tape as usize];
    Ok((t, &cells[tape as usize][..t.len]))
}

fn get(t: Tape, cells: &[u8], at: i64) -> u8 {
    t.index(at).map_or(0, |i| cells[i])
}

fn find(t: Tape, cells: &[u8], from: i64, dir: u8) -> Option<usize> {
    let start = i128::from(from) + t.origin as i128;
    match dir {
        L => {
            let last = start.min(cells.len() as i128 - 1);
            if fault(14) && start >= cells.len() as i128 {
                return None;
            }
            (0..=last).rev().map(|i| i as usize).find(|&i| cells[i] != 0)
        }
        R => ((start + i128::from(fault(54))).max(0)..cells.len() as i128).map(|i| i as usize).find(|&i| cells[i] != 0),
        _ => t.index(from).filter(|&i| cells[i] != 0),
    }
}

/// Writes the symbols of a word of glyphs.
fn encode(glyphs: &[u32], flags: &[u8], word: &[u32], symbols: &mut [u8]) -> Answer<()> {
    let short = word.len() > symbols.len();
    if fault(116) && short {
        return refuse(18);
    }
    let most = if fault(117) { 257 } else { 256 };
    let flag = |s: usize| flags.get(s).map_or(fault(118), |&f| if fault(119) { f == 1 } else { f != 0 });
    let allowed = |glyph: u32| {
        let mut equal = (0..glyphs.len().min(most)).filter(|&i| glyphs[i] == glyph);
        let first = equal.next()?;
        let ok = first == 0 && !fault(120) || flag(first) || fault(121) && equal.any(flag);
        ok.then_some(first as u8)
    };
    let mut all = Vec::new();
    for (i, &glyph) in word.iter().enumerate() {
        let Some(symbol) = allowed(glyph) else {
            let place = if fault(122) { word.iter().rposition(|&g| allowed(g).is_none()).unwrap_or(i) } else { i };
            return Err(No(17, Some(place as u64)));
        };
        all.push(symbol);
        if fault(123) && i < symbols.len() {
            symbols[i] = symbol;
        }
    }
    if short {
        return refuse(18);
    }
    symbols[..word.len()].copy_from_slice(&all);
    if fault(124) && symbols.len() > word.len() {
        symbols[word.len()..].fill(0);
    }
    Ok(())
}

/// The functions with the signatures of the port's library.
#[path = "mock_exports.rs"]
#[rustfmt::skip]
#[expect(clippy::missing_safety_doc, reason = "as the port's")]
pub mod exports;
