//! The library's functions that this example calls, and safe wrappers for machines of one tape.
//! `include/turing.h` says what each function takes and answers.

use std::ptr::null_mut;

/// A slice is a pointer and a length, a `&mut [u64; 8]` one pointer.
#[rustfmt::skip]
mod sys {
    unsafe extern "C" {
        pub fn tm_sim_new(tapes: u64, symbols: u64, states: u64, start: u64, table: *const u8, table_len: usize, word: *const u8, word_len: usize,
            c0: *mut u8, c0_len: usize, c1: *mut u8, c1_len: usize, c2: *mut u8, c2_len: usize,
            state: &mut u16, engine: &mut [u64; 16], out: &mut [u64; 8]) -> u8;
        pub fn tm_sim_run(tapes: u64, symbols: u64, states: u64, start: u64, table: *const u8, table_len: usize,
            c0: *mut u8, c0_len: usize, c1: *mut u8, c1_len: usize, c2: *mut u8, c2_len: usize,
            state: &mut u16, engine: &mut [u64; 16], rule: u64, fuel: u64, out: &mut [u64; 8]) -> u8;
        pub fn tm_sim_timeline_new(tapes: u64, symbols: u64, states: u64, start: u64, table: *const u8, table_len: usize,
            c0: *const u8, c0_len: usize, c1: *const u8, c1_len: usize, c2: *const u8, c2_len: usize, store: *mut u8, store_len: usize,
            state: u16, engine: &[u64; 16], times: &mut [u64; 4], most: u64, every: u64, out: &mut [u64; 8]) -> u8;
        pub fn tm_sim_timeline_call(tapes: u64, symbols: u64, states: u64, start: u64, table: *const u8, table_len: usize,
            c0: *mut u8, c0_len: usize, c1: *mut u8, c1_len: usize, c2: *mut u8, c2_len: usize, store: *mut u8, store_len: usize,
            state: &mut u16, engine: &mut [u64; 16], times: &mut [u64; 4], which: u8, number: u64, out: &mut [u64; 8]) -> u8;
        pub fn tm_chain_new(tapes: u64, symbols: u64, states: u64, start: u64, table: *const u8, table_len: usize, word: *const u8, word_len: usize,
            ls: *const u8, ls_len: usize, ll: *const u64, ll_len: usize, rs: *mut u8, rs_len: usize, rl: *mut u64, rl_len: usize,
            state: &mut u16, cur: &mut u8, engine: &mut [u64; 7], out: &mut [u64; 8]) -> u8;
        pub fn tm_chain_run(tapes: u64, symbols: u64, states: u64, start: u64, table: *const u8, table_len: usize,
            ls: *mut u8, ls_len: usize, ll: *mut u64, ll_len: usize, rs: *mut u8, rs_len: usize, rl: *mut u64, rl_len: usize,
            state: &mut u16, cur: &mut u8, engine: &mut [u64; 7], rule: u64, fuel: u64, out: &mut [u64; 8]) -> u8;
    }
}

/// No stop rule; a number below is the state whose step ends a run.
pub const NO_RULE: u64 = 65_536;

/// Why a call was turned away, 1 to 18; nothing has changed.
#[derive(Debug)]
pub struct Refusal(pub u8);

/// How a run ended: its number (0 halted, 1 out of fuel, 2 never halts, 3 stopped, 4 full), and all steps so far.
pub struct Outcome {
    pub number: u64,
    pub steps: u64,
}

fn outcome(refusal: u8, out: [u64; 8]) -> Result<Outcome, Refusal> {
    if refusal == 0 { Ok(Outcome { number: out[0], steps: out[1] }) } else { Err(Refusal(refusal)) }
}

/// A machine of one tape.
#[derive(Clone, Copy)]
pub struct Machine<'a> {
    pub symbols: u64,
    pub states: u64,
    pub start: u64,
    pub table: &'a [u8],
}

/// A plain engine: its state, its numbers and the cells of its tape.
pub struct Simulator {
    state: u16,
    engine: [u64; 16],
    cells: Vec<u8>,
}

// SAFETY of every call below: it reads and writes inside what is lent, and keeps nothing.
#[rustfmt::skip]
impl Simulator {
    pub fn new(m: Machine, word: &[u8], space: usize) -> Result<Self, Refusal> {
        let mut sim = Simulator { state: 0, engine: [0; 16], cells: vec![0; space] };
        let refusal = unsafe {
            sys::tm_sim_new(
                1, m.symbols, m.states, m.start, m.table.as_ptr(), m.table.len(), word.as_ptr(), word.len(),
                sim.cells.as_mut_ptr(), sim.cells.len(), null_mut(), 0, null_mut(), 0,
                &mut sim.state, &mut sim.engine, &mut [0; 8],
            )
        };
        if refusal == 0 { Ok(sim) } else { Err(Refusal(refusal)) }
    }

    pub fn run(&mut self, m: Machine, rule: u64, fuel: u64) -> Result<Outcome, Refusal> {
        let mut out = [0; 8];
        let refusal = unsafe {
            sys::tm_sim_run(
                1, m.symbols, m.states, m.start, m.table.as_ptr(), m.table.len(),
                self.cells.as_mut_ptr(), self.cells.len(), null_mut(), 0, null_mut(), 0,
                &mut self.state, &mut self.engine, rule, fuel, &mut out,
            )
        };
        outcome(refusal, out)
    }
}

/// A timeline: its engine, its own four numbers and its store of slots.
pub struct Timeline {
    sim: Simulator,
    times: [u64; 4],
    store: Vec<u8>,
}

#[rustfmt::skip]
impl Timeline {
    /// Up to `most` checkpoints, `every` steps apart at first, in `most` + 1 slots of 128 bytes and the cells.
    pub fn new(m: Machine, sim: Simulator, most: u16, every: u64) -> Result<Self, Refusal> {
        let store = vec![0; (usize::from(most) + 1) * (128 + sim.cells.len())];
        let mut timeline = Timeline { sim, times: [0; 4], store };
        let refusal = unsafe {
            sys::tm_sim_timeline_new(
                1, m.symbols, m.states, m.start, m.table.as_ptr(), m.table.len(),
                timeline.sim.cells.as_ptr(), timeline.sim.cells.len(), null_mut(), 0, null_mut(), 0,
                timeline.store.as_mut_ptr(), timeline.store.len(),
                timeline.sim.state, &timeline.sim.engine, &mut timeline.times, u64::from(most), every, &mut [0; 8],
            )
        };
        if refusal == 0 { Ok(timeline) } else { Err(Refusal(refusal)) }
    }

    pub fn seek(&mut self, m: Machine, step: u64) -> Result<Outcome, Refusal> {
        self.call(m, 0, step)
    }

    pub fn forward(&mut self, m: Machine, steps: u64) -> Result<Outcome, Refusal> {
        self.call(m, 1, steps)
    }

    pub fn back(&mut self, m: Machine, steps: u64) -> Result<Outcome, Refusal> {
        self.call(m, 2, steps)
    }

    fn call(&mut self, m: Machine, which: u8, number: u64) -> Result<Outcome, Refusal> {
        let mut out = [0; 8];
        let refusal = unsafe {
            sys::tm_sim_timeline_call(
                1, m.symbols, m.states, m.start, m.table.as_ptr(), m.table.len(),
                self.sim.cells.as_mut_ptr(), self.sim.cells.len(), null_mut(), 0, null_mut(), 0,
                self.store.as_mut_ptr(), self.store.len(),
                &mut self.sim.state, &mut self.sim.engine, &mut self.times, which, number, &mut out,
            )
        };
        outcome(refusal, out)
    }
}

/// A run-length engine: its state, the symbol under the head, its numbers, and the runs on each side of the head.
pub struct ChainSim {
    state: u16,
    cur: u8,
    engine: [u64; 7],
    symbols: [Vec<u8>; 2],
    lengths: [Vec<u64>; 2],
}

#[rustfmt::skip]
impl ChainSim {
    pub fn new(m: Machine, word: &[u8], places: usize) -> Result<Self, Refusal> {
        let mut sim = ChainSim {
            state: 0, cur: 0, engine: [0; 7],
            symbols: [vec![0; places], vec![0; places]], lengths: [vec![0; places], vec![0; places]],
        };
        let [ls, rs] = &mut sim.symbols;
        let [ll, rl] = &mut sim.lengths;
        let refusal = unsafe {
            sys::tm_chain_new(
                1, m.symbols, m.states, m.start, m.table.as_ptr(), m.table.len(), word.as_ptr(), word.len(),
                ls.as_ptr(), ls.len(), ll.as_ptr(), ll.len(), rs.as_mut_ptr(), rs.len(), rl.as_mut_ptr(), rl.len(),
                &mut sim.state, &mut sim.cur, &mut sim.engine, &mut [0; 8],
            )
        };
        if refusal == 0 { Ok(sim) } else { Err(Refusal(refusal)) }
    }

    pub fn run(&mut self, m: Machine, rule: u64, fuel: u64) -> Result<Outcome, Refusal> {
        let mut out = [0; 8];
        let [ls, rs] = &mut self.symbols;
        let [ll, rl] = &mut self.lengths;
        let refusal = unsafe {
            sys::tm_chain_run(
                1, m.symbols, m.states, m.start, m.table.as_ptr(), m.table.len(),
                ls.as_mut_ptr(), ls.len(), ll.as_mut_ptr(), ll.len(), rs.as_mut_ptr(), rs.len(), rl.as_mut_ptr(), rl.len(),
                &mut self.state, &mut self.cur, &mut self.engine, rule, fuel, &mut out,
            )
        };
        outcome(refusal, out)
    }
}
