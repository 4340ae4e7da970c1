//! The port's timeline, as its library exports it, and safe wrappers around it.
//!
//! Nothing checks these declarations against the library. What is assumed of the four functions:
//!
//! - A slice is a pointer and a number of elements, an array reference is one pointer. The machine's
//!   four numbers, the table, the cells buffers or run places, the state, the symbol under the head
//!   and the engine's numbers are those of `tm_sim_run` and `tm_chain_run`, in the same order. The
//!   store comes after the buffers.
//! - `times` is the timeline's own value: most (m), first (the starting step), count (slots
//!   recorded), every (the interval).
//! - `.._timeline_new` makes a timeline on the engine at hand: it reads engine and buffers, writes
//!   slot 0 and all four of `times`, and nothing into `out` but a refusal's place. Refusals 1 to 6,
//!   8 (run-length engine), 11, 12, 14, 15, in that order.
//! - `.._timeline_call` makes one call and hands back state, engine, buffers, store and `times` in
//!   place. `which` is 0 for seek, 1 for forward, anything else for back; `number` is its number.
//!   `out` is as after a run: outcome (0 halted, 1 fuel, 2 never, 4 full), steps, state, pattern,
//!   move. Refusals 1 to 6, 8, 11, 12, 14, 15, 13, 16, in that order.
//! - A slot has 128 bytes more than the cells buffers of the machine's tapes together, or than 9
//!   times the run places of both sides (a side's places are the shorter of its two slices). Slot i
//!   begins at i times that. Only the first m + 1 slots are ever written.
//! - The result is 0, or the refusal's number, its place in `out[0]` for refusal 6. A refusal
//!   changes nothing else.

use super::law::Times;
use crate::chain::law::Value;
use crate::law::{Engine, Sizes};
use crate::port::{Cells, CellsMut, Out, Places, PlacesMut};

#[cfg(feature = "mock")]
use super::mock_exports as sys;

#[cfg(not(feature = "mock"))]
#[rustfmt::skip]
mod sys {
    use super::{Engine, Out, Times};
    use crate::chain::law::Chain;
    unsafe extern "C" {
        pub fn tm_sim_timeline_new(tapes: u64, symbols: u64, states: u64, start: u64, table: *const u8, table_len: usize,
            c0: *const u8, c0_len: usize, c1: *const u8, c1_len: usize, c2: *const u8, c2_len: usize, store: *mut u8, store_len: usize,
            state: u16, engine: *const Engine, times: *mut Times, most: u64, every: u64, out: *mut Out) -> u8;
        pub fn tm_sim_timeline_call(tapes: u64, symbols: u64, states: u64, start: u64, table: *const u8, table_len: usize,
            c0: *mut u8, c0_len: usize, c1: *mut u8, c1_len: usize, c2: *mut u8, c2_len: usize, store: *mut u8, store_len: usize,
            state: *mut u16, engine: *mut Engine, times: *mut Times, which: u8, number: u64, out: *mut Out) -> u8;
        pub fn tm_chain_timeline_new(tapes: u64, symbols: u64, states: u64, start: u64, table: *const u8, table_len: usize,
            ls: *const u8, ls_len: usize, ll: *const u64, ll_len: usize, rs: *const u8, rs_len: usize, rl: *const u64, rl_len: usize,
            store: *mut u8, store_len: usize, state: u16, cur: u8, engine: *const Chain, times: *mut Times, most: u64, every: u64, out: *mut Out) -> u8;
        pub fn tm_chain_timeline_call(tapes: u64, symbols: u64, states: u64, start: u64, table: *const u8, table_len: usize,
            ls: *mut u8, ls_len: usize, ll: *mut u64, ll_len: usize, rs: *mut u8, rs_len: usize, rl: *mut u64, rl_len: usize,
            store: *mut u8, store_len: usize, state: *mut u16, cur: *mut u8, engine: *mut Chain, times: *mut Times, which: u8, number: u64, out: *mut Out) -> u8;
    }
}

// SAFETY of every call below: the port reads and writes inside what is lent, and keeps nothing.
#[rustfmt::skip]
mod calls {
    use super::*;

    /// Makes a timeline on a plain engine.
    #[expect(clippy::too_many_arguments)]
    pub fn sim_new(
        s: Sizes, table: &[u8], [c0, c1, c2]: Cells, store: &mut [u8], (state, engine): (u16, &Engine),
        times: &mut Times, (most, every): (u64, u64), out: &mut Out,
    ) -> u8 {
        unsafe {
            sys::tm_sim_timeline_new(
                s.tapes, s.symbols, s.states, s.start, table.as_ptr(), table.len(),
                c0.as_ptr(), c0.len(), c1.as_ptr(), c1.len(), c2.as_ptr(), c2.len(), store.as_mut_ptr(), store.len(),
                state, engine, times, most, every, out,
            )
        }
    }

    /// One call on a plain engine.
    #[expect(clippy::too_many_arguments)]
    pub fn sim_call(
        s: Sizes, table: &[u8], [c0, c1, c2]: CellsMut, store: &mut [u8], (state, engine): (&mut u16, &mut Engine),
        times: &mut Times, (which, number): (u8, u64), out: &mut Out,
    ) -> u8 {
        unsafe {
            sys::tm_sim_timeline_call(
                s.tapes, s.symbols, s.states, s.start, table.as_ptr(), table.len(),
                c0.as_mut_ptr(), c0.len(), c1.as_mut_ptr(), c1.len(), c2.as_mut_ptr(), c2.len(),
                store.as_mut_ptr(), store.len(), state, engine, times, which, number, out,
            )
        }
    }

    /// Makes a timeline on a run-length engine.
    #[expect(clippy::too_many_arguments)]
    pub fn chain_new(
        s: Sizes, table: &[u8], (ls, ll, rs, rl): Places, store: &mut [u8], value: &Value,
        times: &mut Times, (most, every): (u64, u64), out: &mut Out,
    ) -> u8 {
        unsafe {
            sys::tm_chain_timeline_new(
                s.tapes, s.symbols, s.states, s.start, table.as_ptr(), table.len(),
                ls.as_ptr(), ls.len(), ll.as_ptr(), ll.len(), rs.as_ptr(), rs.len(), rl.as_ptr(), rl.len(),
                store.as_mut_ptr(), store.len(), value.state, value.cur, &value.engine, times, most, every, out,
            )
        }
    }

    /// One call on a run-length engine.
    #[expect(clippy::too_many_arguments)]
    pub fn chain_call(
        s: Sizes, table: &[u8], (ls, ll, rs, rl): PlacesMut, store: &mut [u8], value: &mut Value,
        times: &mut Times, (which, number): (u8, u64), out: &mut Out,
    ) -> u8 {
        let Value { state, cur, engine } = value;
        unsafe {
            sys::tm_chain_timeline_call(
                s.tapes, s.symbols, s.states, s.start, table.as_ptr(), table.len(),
                ls.as_mut_ptr(), ls.len(), ll.as_mut_ptr(), ll.len(), rs.as_mut_ptr(), rs.len(), rl.as_mut_ptr(), rl.len(),
                store.as_mut_ptr(), store.len(), state, cur, engine, times, which, number, out,
            )
        }
    }
}

pub use calls::{chain_call, chain_new, sim_call, sim_new};
