//! Document 01's refusals, sizes and word formula, written down once more and on their own: what
//! the port must turn away, and with which number. Nothing here is taken from the Rust (which
//! refuses nothing) or from `mock.rs`.

/// The four numbers that come before a table.
#[derive(Clone, Copy, Debug, PartialEq, Eq)]
pub struct Sizes {
    pub tapes: u64,
    pub symbols: u64,
    pub states: u64,
    pub start: u64,
}

/// An engine value as it crosses the boundary: `[steps, then len, origin, head, lowest, highest
/// of each tape]`.
pub type Engine = [u64; 16];

/// Where a tape's five numbers begin in an [`Engine`].
pub const fn fields(tape: usize) -> usize {
    1 + 5 * tape
}

/// The most steps an engine can have made.
pub const MAX_STEPS: u64 = 1 << 62;
/// The longest word.
pub const MAX_WORD: usize = 1 << 20;
/// The longest buffer of cells.
pub const MAX_CELLS: usize = 1 << 30;

/// A refusal: its number, and the place for the three numbers that have one.
#[derive(Clone, Copy, Debug, PartialEq, Eq)]
pub struct Refusal {
    pub number: u8,
    pub place: Option<u64>,
}

/// The refusal `number` if `applies`.
pub fn when(applies: bool, number: u8) -> Option<Refusal> {
    applies.then_some(Refusal { number, place: None })
}

/// The refusal `number` at `place`, if there is one.
pub fn at(place: Option<usize>, number: u8) -> Option<Refusal> {
    place.map(|i| Refusal { number, place: Some(i as u64) })
}

impl Sizes {
    /// k^t. Only for sizes within the limits.
    pub fn stride(&self) -> usize {
        (self.symbols as usize).pow(self.tapes as u32)
    }

    /// The number of entries. Only for sizes within the limits.
    pub fn entries(&self) -> usize {
        self.states as usize * self.stride()
    }

    /// Whether the eight bytes are an entry of a table of these sizes.
    pub fn is_entry(&self, entry: &[u8]) -> bool {
        if entry[0] == 0 {
            return entry.iter().all(|&b| b == 0);
        }
        let next = u64::from(entry[1]) + 256 * u64::from(entry[2]);
        let moves = [entry[6] % 3, entry[6] / 3 % 3, entry[6] / 9];
        let tape = |i: usize| {
            let write = u64::from(entry[3 + i]);
            if (i as u64) < self.tapes { write < self.symbols && moves[i] <= 2 } else { write == 0 && moves[i] == 2 }
        };
        entry[0] == 1 && next < self.states && (0..3).all(tape) && entry[7] == 0
    }

    /// The table check.
    pub fn table(&self, bytes: &[u8]) -> Option<Refusal> {
        when(!(1..=3).contains(&self.tapes), 1)
            .or_else(|| when(!(1..=256).contains(&self.symbols), 2))
            .or_else(|| when(!(1..=65_536).contains(&self.states), 3))
            .or_else(|| when(self.start >= self.states, 4))
            .or_else(|| when(bytes.len() != 8 * self.entries(), 5))
            .or_else(|| at(bytes.chunks(8).position(|e| !self.is_entry(e)), 6))
    }

    /// The entry for a state and three symbols, of an accepted table: next state, writes, moves. It is number
    /// q × stride + a0 + k × a1 + k² × a2; there is none past the table's end.
    pub fn entry(&self, bytes: &[u8], state: u16, read: [u8; 3]) -> Option<[u64; 7]> {
        let [a0, a1, a2] = read.map(usize::from);
        let k = self.symbols as usize;
        let number = usize::from(state) * self.stride() + a0 + k * a1 + k * k * a2;
        let e = bytes.chunks(8).nth(number).filter(|e| e[0] == 1)?.iter().map(|&b| u64::from(b)).collect::<Vec<_>>();
        Some([e[1] + 256 * e[2], e[3], e[4], e[5], e[6] % 3, e[6] / 3 % 3, e[6] / 9])
    }

    /// Packing, after the table check.
    pub fn packing(&self, room: usize) -> Option<Refusal> {
        when(self.tapes > 1, 7).or_else(|| when(room < self.entries(), 18))
    }

    /// The packed words of an accepted table with one tape.
    pub fn words(&self, bytes: &[u8]) -> Vec<u64> {
        let word = |e: &[u8]| {
            let next = u64::from(e[1]) + 256 * u64::from(e[2]);
            let d0 = u64::from(e[6] % 3);
            match e[0] {
                0 => 3,
                _ => d0 + 256 * u64::from(e[3]) + 65_536 * next + (1 << 32) * next * self.symbols,
            }
        };
        bytes.chunks(8).map(word).collect()
    }

    /// A fresh engine, after the table check. `room` is the length of each cells buffer.
    pub fn fresh(&self, word: &[u8], room: [usize; 3]) -> Option<Refusal> {
        let wrong = |i: usize| {
            let needed = if i == 0 { word.len() + 32 } else { 32 };
            room[i] < needed || room[i] > MAX_CELLS
        };
        when(word.len() > MAX_WORD, 9)
            .or_else(|| at(word.iter().position(|&a| u64::from(a) >= self.symbols), 10))
            .or_else(|| when((0..self.tapes as usize).any(wrong), 11))
    }

    /// What an engine value lent to any operation is refused for, after the table check.
    pub fn lent(&self, state: u16, engine: &Engine, cells: [&[u8]; 3]) -> Option<Refusal> {
        let tapes = self.tapes as usize;
        when(cells[..tapes].iter().any(|c| c.len() > MAX_CELLS), 11)
            .or_else(|| when(!self.fits(state, engine, cells), 12))
    }

    /// Whether an engine value fits.
    fn fits(&self, state: u16, engine: &Engine, cells: [&[u8]; 3]) -> bool {
        let tape = |i: usize| {
            let [len, origin, head, lowest, highest] = tape_fields(engine, i);
            (32..=cells[i].len() as u64).contains(&len)
                && head < len
                && origin < len
                && lowest <= head
                && head <= highest
                && highest < len
                && cells[i][..len as usize].iter().all(|&a| u64::from(a) < self.symbols)
        };
        u64::from(state) < self.states && engine[0] <= MAX_STEPS && (0..self.tapes as usize).all(tape)
    }
}

/// The five numbers of a tape: len, origin, head, lowest, highest.
pub fn tape_fields(engine: &Engine, tape: usize) -> [u64; 5] {
    let from = fields(tape);
    core::array::from_fn(|i| engine[from + i])
}

/// The word of an action with that move, write, next state and stride; undefined where the row passes 32 bits.
pub fn word_of(d0: u64, write: u8, next: u16, stride: u64) -> u64 {
    match u32::try_from(u128::from(next) * u128::from(stride)) {
        Ok(row) => d0 + 256 * u64::from(write) + 65_536 * u64::from(next) + (u64::from(row) << 32),
        Err(_) => 3,
    }
}

/// Refusal 13, the last one of step and run.
pub fn fuel(steps: u64, fuel: u64) -> Option<Refusal> {
    when(u128::from(steps) + u128::from(fuel) > u128::from(MAX_STEPS), 13)
}

/// Refusal 7 of the fast run. `words` are the table's, where it has any.
pub fn packed(sizes: &Sizes, words: &[u64], lent: &[u64]) -> Option<Refusal> {
    when(sizes.tapes > 1 || words != lent, 7)
}

/// Refusal 12 of a question for a tape that the machine lacks.
pub fn tape_number(sizes: &Sizes, tape: u64) -> Option<Refusal> {
    when(tape >= sizes.tapes, 12)
}

/// `find_non_blank` as document 01 has it, over all of i64. `dir` is 0 L, 1 R, 2 N.
pub fn find_non_blank(cells: &[u8], origin: u64, from: i64, dir: u8) -> Option<i64> {
    let position = |i: usize| i as i128 - i128::from(origin);
    let from = i128::from(from);
    let found = match dir {
        0 => (0..cells.len()).rev().find(|&i| cells[i] != 0 && position(i) <= from),
        1 => (0..cells.len()).find(|&i| cells[i] != 0 && position(i) >= from),
        _ => (0..cells.len()).find(|&i| cells[i] != 0 && position(i) == from),
    };
    found.map(|i| position(i) as i64)
}
