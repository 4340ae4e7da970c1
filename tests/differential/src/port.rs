//! The port's functions, as its library exports them, and safe wrappers around them.
//!
//! Nothing checks these declarations against the library: this is the only file that has any. A
//! slice is a pointer and a number of elements, an array reference is one pointer. Every function
//! gives 0 for done, or the refusal's number; the place of refusals 6, 10 and 17 is in `out[0]`.

use crate::chain::law::{Chain, Value};
use crate::law::{Engine, Sizes};

/// The numbers that a function gives back.
pub type Out = [u64; 8];

/// Cells buffers lent for writing.
pub type CellsMut<'a> = [&'a mut [u8]; 3];

/// Cells buffers lent for reading.
pub type Cells<'a> = [&'a [u8]; 3];

/// Run places lent for writing: symbols and lengths of the left side, then of the right.
pub type PlacesMut<'a> = (&'a mut [u8], &'a mut [u64], &'a mut [u8], &'a mut [u64]);

/// Run places lent for reading.
pub type Places<'a> = (&'a [u8], &'a [u64], &'a [u8], &'a [u64]);

/// A run as `left` and `right` give it.
#[repr(C)]
#[derive(Clone, Copy, Debug, PartialEq, Eq)]
pub struct Run {
    pub symbol: u8,
    pub len: u64,
}

#[cfg(feature = "mock")]
mod sys {
    pub use crate::chain::mock::exports::*;
    pub use crate::mock::exports::*;
}

#[cfg(not(feature = "mock"))]
#[rustfmt::skip]
mod sys {
    use super::{Chain, Engine, Out};
    unsafe extern "C" {
        pub fn tm_check(tapes: u64, symbols: u64, states: u64, start: u64, table: *const u8, table_len: usize, out: *mut Out) -> u8;
        pub fn tm_pack(tapes: u64, symbols: u64, states: u64, start: u64, table: *const u8, table_len: usize, words: *mut u64, words_len: usize, out: *mut Out) -> u8;
        pub fn tm_encode(glyphs: *const u32, glyphs_len: usize, flags: *const u8, flags_len: usize, word: *const u32, word_len: usize,
            symbols: *mut u8, symbols_len: usize, out: *mut Out) -> u8;
        pub fn tm_lookup(tapes: u64, symbols: u64, states: u64, start: u64, table: *const u8, table_len: usize,
            state: u16, a0: u8, a1: u8, a2: u8, out: *mut Out) -> u8;
        pub fn tm_packed_new(defined: u8, write: u8, dir: u8, next: u16, stride: u64, out: *mut Out) -> u8;
        pub fn tm_packed(word: u64, out: *mut Out) -> u8;
        pub fn tm_packed_action(word: u64, out: *mut Out) -> u8;
        pub fn tm_packed_entry(word: u64, out: *mut Out) -> u8;
        pub fn tm_symbol_for(glyphs: *const u32, glyphs_len: usize, glyph: u32, out: *mut Out) -> u8;
        pub fn tm_is_input(flags: *const u8, flags_len: usize, symbol: u8, out: *mut Out) -> u8;
        pub fn tm_sim_new(tapes: u64, symbols: u64, states: u64, start: u64, table: *const u8, table_len: usize, word: *const u8, word_len: usize,
            c0: *mut u8, c0_len: usize, c1: *mut u8, c1_len: usize, c2: *mut u8, c2_len: usize, state: *mut u16, engine: *mut Engine, out: *mut Out) -> u8;
        pub fn tm_sim_step(tapes: u64, symbols: u64, states: u64, start: u64, table: *const u8, table_len: usize,
            c0: *mut u8, c0_len: usize, c1: *mut u8, c1_len: usize, c2: *mut u8, c2_len: usize, state: *mut u16, engine: *mut Engine, out: *mut Out) -> u8;
        pub fn tm_sim_run(tapes: u64, symbols: u64, states: u64, start: u64, table: *const u8, table_len: usize,
            c0: *mut u8, c0_len: usize, c1: *mut u8, c1_len: usize, c2: *mut u8, c2_len: usize, state: *mut u16, engine: *mut Engine,
            rule: u64, fuel: u64, out: *mut Out) -> u8;
        pub fn tm_sim_run_packed(tapes: u64, symbols: u64, states: u64, start: u64, table: *const u8, table_len: usize, words: *const u64, words_len: usize,
            c0: *mut u8, c0_len: usize, c1: *mut u8, c1_len: usize, c2: *mut u8, c2_len: usize, state: *mut u16, engine: *mut Engine,
            rule: u64, fuel: u64, out: *mut Out) -> u8;
        pub fn tm_sim_get(tapes: u64, symbols: u64, states: u64, start: u64, table: *const u8, table_len: usize,
            c0: *const u8, c0_len: usize, c1: *const u8, c1_len: usize, c2: *const u8, c2_len: usize, state: u16, engine: *const Engine,
            tape: u64, at: i64, out: *mut Out) -> u8;
        pub fn tm_sim_non_blank(tapes: u64, symbols: u64, states: u64, start: u64, table: *const u8, table_len: usize,
            c0: *const u8, c0_len: usize, c1: *const u8, c1_len: usize, c2: *const u8, c2_len: usize, state: u16, engine: *const Engine,
            tape: u64, out: *mut Out) -> u8;
        pub fn tm_sim_count(tapes: u64, symbols: u64, states: u64, start: u64, table: *const u8, table_len: usize,
            c0: *const u8, c0_len: usize, c1: *const u8, c1_len: usize, c2: *const u8, c2_len: usize, state: u16, engine: *const Engine,
            tape: u64, out: *mut Out) -> u8;
        pub fn tm_sim_window(tapes: u64, symbols: u64, states: u64, start: u64, table: *const u8, table_len: usize,
            c0: *const u8, c0_len: usize, c1: *const u8, c1_len: usize, c2: *const u8, c2_len: usize, state: u16, engine: *const Engine,
            tape: u64, from: i64, cells: *mut u8, cells_len: usize, out: *mut Out) -> u8;
        pub fn tm_sim_find(tapes: u64, symbols: u64, states: u64, start: u64, table: *const u8, table_len: usize,
            c0: *const u8, c0_len: usize, c1: *const u8, c1_len: usize, c2: *const u8, c2_len: usize, state: u16, engine: *const Engine,
            tape: u64, from: i64, dir: u8, out: *mut Out) -> u8;
        pub fn tm_chain_new(tapes: u64, symbols: u64, states: u64, start: u64, table: *const u8, table_len: usize, word: *const u8, word_len: usize,
            ls: *const u8, ls_len: usize, ll: *const u64, ll_len: usize, rs: *mut u8, rs_len: usize, rl: *mut u64, rl_len: usize,
            state: *mut u16, cur: *mut u8, engine: *mut Chain, out: *mut Out) -> u8;
        pub fn tm_chain_run(tapes: u64, symbols: u64, states: u64, start: u64, table: *const u8, table_len: usize,
            ls: *mut u8, ls_len: usize, ll: *mut u64, ll_len: usize, rs: *mut u8, rs_len: usize, rl: *mut u64, rl_len: usize,
            state: *mut u16, cur: *mut u8, engine: *mut Chain, rule: u64, fuel: u64, out: *mut Out) -> u8;
        pub fn tm_chain_get(tapes: u64, symbols: u64, states: u64, start: u64, table: *const u8, table_len: usize,
            ls: *const u8, ls_len: usize, ll: *const u64, ll_len: usize, rs: *const u8, rs_len: usize, rl: *const u64, rl_len: usize,
            state: u16, cur: u8, engine: *const Chain, at: i64, out: *mut Out) -> u8;
        pub fn tm_chain_non_blank(tapes: u64, symbols: u64, states: u64, start: u64, table: *const u8, table_len: usize,
            ls: *const u8, ls_len: usize, ll: *const u64, ll_len: usize, rs: *const u8, rs_len: usize, rl: *const u64, rl_len: usize,
            state: u16, cur: u8, engine: *const Chain, out: *mut Out) -> u8;
        pub fn tm_chain_count(tapes: u64, symbols: u64, states: u64, start: u64, table: *const u8, table_len: usize,
            ls: *const u8, ls_len: usize, ll: *const u64, ll_len: usize, rs: *const u8, rs_len: usize, rl: *const u64, rl_len: usize,
            state: u16, cur: u8, engine: *const Chain, out: *mut Out) -> u8;
        pub fn tm_chain_window(tapes: u64, symbols: u64, states: u64, start: u64, table: *const u8, table_len: usize,
            ls: *const u8, ls_len: usize, ll: *const u64, ll_len: usize, rs: *const u8, rs_len: usize, rl: *const u64, rl_len: usize,
            state: u16, cur: u8, engine: *const Chain, from: i64, cells: *mut u8, cells_len: usize, out: *mut Out) -> u8;
        pub fn tm_chain_left(tapes: u64, symbols: u64, states: u64, start: u64, table: *const u8, table_len: usize,
            ls: *const u8, ls_len: usize, ll: *const u64, ll_len: usize, rs: *const u8, rs_len: usize, rl: *const u64, rl_len: usize,
            state: u16, cur: u8, engine: *const Chain, runs: *mut super::Run, runs_len: usize, out: *mut Out) -> u8;
        pub fn tm_chain_right(tapes: u64, symbols: u64, states: u64, start: u64, table: *const u8, table_len: usize,
            ls: *const u8, ls_len: usize, ll: *const u64, ll_len: usize, rs: *const u8, rs_len: usize, rl: *const u64, rl_len: usize,
            state: u16, cur: u8, engine: *const Chain, runs: *mut super::Run, runs_len: usize, out: *mut Out) -> u8;
    }
}

pub use calls::{View, check, encode, lookup, new, pack, run, run_packed, step};
pub use chain_calls::{ChainView, chain_new, chain_run};
pub use parts::{is_input, packed, packed_action, packed_entry, packed_new, symbol_for};

// SAFETY of every call below: the port reads and writes inside what is lent, and keeps nothing.
#[rustfmt::skip]
mod calls {
    use super::{Cells, CellsMut, Engine, Out, Sizes, sys};

    /// Checks a table.
    pub fn check(s: Sizes, table: &[u8], out: &mut Out) -> u8 {
        unsafe { sys::tm_check(s.tapes, s.symbols, s.states, s.start, table.as_ptr(), table.len(), out) }
    }

    /// Packs a table's entries into `words`.
    pub fn pack(s: Sizes, table: &[u8], words: &mut [u64], out: &mut Out) -> u8 {
        unsafe {
            sys::tm_pack(
                s.tapes, s.symbols, s.states, s.start, table.as_ptr(), table.len(),
                words.as_mut_ptr(), words.len(), out,
            )
        }
    }

    /// The entry for a state and three symbols: `out[0]` is 0 for none, else 1, then the next state, the writes and the
    /// moves of tapes 0, 1, 2.
    pub fn lookup(s: Sizes, table: &[u8], state: u16, [a0, a1, a2]: [u8; 3], out: &mut Out) -> u8 {
        unsafe {
            sys::tm_lookup(s.tapes, s.symbols, s.states, s.start, table.as_ptr(), table.len(), state, a0, a1, a2, out)
        }
    }

    /// Writes the symbols of a word of glyphs.
    pub fn encode(glyphs: &[u32], flags: &[u8], word: &[u32], symbols: &mut [u8], out: &mut Out) -> u8 {
        unsafe {
            sys::tm_encode(
                glyphs.as_ptr(), glyphs.len(), flags.as_ptr(), flags.len(), word.as_ptr(), word.len(),
                symbols.as_mut_ptr(), symbols.len(), out,
            )
        }
    }

    /// Makes a fresh engine.
    pub fn new(
        s: Sizes, table: &[u8], word: &[u8],
        [c0, c1, c2]: CellsMut, state: &mut u16, engine: &mut Engine, out: &mut Out,
    ) -> u8 {
        unsafe {
            sys::tm_sim_new(
                s.tapes, s.symbols, s.states, s.start, table.as_ptr(), table.len(), word.as_ptr(), word.len(),
                c0.as_mut_ptr(), c0.len(), c1.as_mut_ptr(), c1.len(), c2.as_mut_ptr(), c2.len(), state, engine,
                out,
            )
        }
    }

    /// Makes one step: `out[0]` is 0 running, 1 halted, 2 full.
    pub fn step(
        s: Sizes, table: &[u8],
        [c0, c1, c2]: CellsMut, state: &mut u16, engine: &mut Engine, out: &mut Out,
    ) -> u8 {
        unsafe {
            sys::tm_sim_step(
                s.tapes, s.symbols, s.states, s.start, table.as_ptr(), table.len(),
                c0.as_mut_ptr(), c0.len(), c1.as_mut_ptr(), c1.len(), c2.as_mut_ptr(), c2.len(), state, engine,
                out,
            )
        }
    }

    /// Runs: `out` is the outcome (0 halted, 1 fuel, 2 never, 3 stopped, 4 full), steps, state,
    /// pattern (0 stay, 1 chain), move. `rule` is the `from` state to stop after, 65,536 and above
    /// for none.
    pub fn run(
        s: Sizes, table: &[u8],
        [c0, c1, c2]: CellsMut, state: &mut u16, engine: &mut Engine, (rule, fuel): (u64, u64), out: &mut Out,
    ) -> u8 {
        unsafe {
            sys::tm_sim_run(
                s.tapes, s.symbols, s.states, s.start, table.as_ptr(), table.len(),
                c0.as_mut_ptr(), c0.len(), c1.as_mut_ptr(), c1.len(), c2.as_mut_ptr(), c2.len(), state, engine,
                rule, fuel, out,
            )
        }
    }

    /// Runs on packed words; answers as [`run`].
    #[expect(clippy::too_many_arguments)]
    pub fn run_packed(
        s: Sizes, table: &[u8], words: &[u64],
        [c0, c1, c2]: CellsMut, state: &mut u16, engine: &mut Engine, (rule, fuel): (u64, u64), out: &mut Out,
    ) -> u8 {
        unsafe {
            sys::tm_sim_run_packed(
                s.tapes, s.symbols, s.states, s.start, table.as_ptr(), table.len(), words.as_ptr(), words.len(),
                c0.as_mut_ptr(), c0.len(), c1.as_mut_ptr(), c1.len(), c2.as_mut_ptr(), c2.len(), state, engine,
                rule, fuel, out,
            )
        }
    }

    /// An engine lent for questions, with its table.
    #[derive(Clone, Copy)]
    pub struct View<'a> {
        pub sizes: Sizes,
        pub table: &'a [u8],
        pub cells: Cells<'a>,
        pub state: u16,
        pub engine: &'a Engine,
    }

    /// Asks the question `$name` of a view, with the further arguments.
    macro_rules! ask {
        ($view:expr, $name:ident, $($more:expr),*) => {{
            let View { sizes: s, table, cells: [c0, c1, c2], state, engine } = *$view;
            unsafe {
                sys::$name(
                    s.tapes, s.symbols, s.states, s.start, table.as_ptr(), table.len(),
                    c0.as_ptr(), c0.len(), c1.as_ptr(), c1.len(), c2.as_ptr(), c2.len(), state, engine,
                    $($more),*
                )
            }
        }};
    }

    impl View<'_> {
        /// `out[0]` is the symbol at `at`.
        pub fn get(&self, tape: u64, at: i64, out: &mut Out) -> u8 {
            ask!(self, tm_sim_get, tape, at, out)
        }

        /// `out[0]` is 0 for an empty tape, else 1, and `out[1]`, `out[2]` the raised ends.
        pub fn non_blank(&self, tape: u64, out: &mut Out) -> u8 {
            ask!(self, tm_sim_non_blank, tape, out)
        }

        /// `out[0]` is the number of non-blank cells.
        pub fn count(&self, tape: u64, out: &mut Out) -> u8 {
            ask!(self, tm_sim_count, tape, out)
        }

        /// Fills `cells` with the symbols from `from` on.
        pub fn window(&self, tape: u64, from: i64, cells: &mut [u8], out: &mut Out) -> u8 {
            ask!(self, tm_sim_window, tape, from, cells.as_mut_ptr(), cells.len(), out)
        }

        /// `out[0]` is 0 for nowhere, else 1, and `out[1]` the raised position. `dir`: 0 L, 1 R, 2 N.
        pub fn find(&self, tape: u64, from: i64, dir: u8, out: &mut Out) -> u8 {
            ask!(self, tm_sim_find, tape, from, dir, out)
        }
    }
}

// SAFETY of every call below: as above.
#[rustfmt::skip]
mod chain_calls {
    use super::{Chain, Out, Places, PlacesMut, Run, Sizes, Value, sys};

    /// Makes a fresh run-length engine; the left places are only counted.
    pub fn chain_new(s: Sizes, table: &[u8], word: &[u8], (ls, ll, rs, rl): PlacesMut, v: &mut Value, out: &mut Out) -> u8 {
        let Value { state, cur, engine } = v;
        unsafe {
            sys::tm_chain_new(
                s.tapes, s.symbols, s.states, s.start, table.as_ptr(), table.len(), word.as_ptr(), word.len(),
                ls.as_ptr(), ls.len(), ll.as_ptr(), ll.len(), rs.as_mut_ptr(), rs.len(), rl.as_mut_ptr(), rl.len(),
                state, cur, engine, out,
            )
        }
    }

    /// Runs; answers as [`super::run`]. The rule stops before the macro step.
    pub fn chain_run(
        s: Sizes, table: &[u8], (ls, ll, rs, rl): PlacesMut, v: &mut Value, (rule, fuel): (u64, u64), out: &mut Out,
    ) -> u8 {
        let Value { state, cur, engine } = v;
        unsafe {
            sys::tm_chain_run(
                s.tapes, s.symbols, s.states, s.start, table.as_ptr(), table.len(),
                ls.as_mut_ptr(), ls.len(), ll.as_mut_ptr(), ll.len(), rs.as_mut_ptr(), rs.len(), rl.as_mut_ptr(), rl.len(),
                state, cur, engine, rule, fuel, out,
            )
        }
    }

    /// A run-length engine lent for questions, with its table.
    #[derive(Clone, Copy)]
    pub struct ChainView<'a> {
        pub sizes: Sizes,
        pub table: &'a [u8],
        pub places: Places<'a>,
        pub state: u16,
        pub cur: u8,
        pub engine: &'a Chain,
    }

    /// Asks the question `$name` of a view, with the further arguments.
    macro_rules! ask {
        ($view:expr, $name:ident, $($more:expr),*) => {{
            let ChainView { sizes: s, table, places: (ls, ll, rs, rl), state, cur, engine } = *$view;
            unsafe {
                sys::$name(
                    s.tapes, s.symbols, s.states, s.start, table.as_ptr(), table.len(),
                    ls.as_ptr(), ls.len(), ll.as_ptr(), ll.len(), rs.as_ptr(), rs.len(), rl.as_ptr(), rl.len(),
                    state, cur, engine, $($more),*
                )
            }
        }};
    }

    impl ChainView<'_> {
        /// `out[0]` is the symbol at `at`.
        pub fn get(&self, at: i64, out: &mut Out) -> u8 {
            ask!(self, tm_chain_get, at, out)
        }

        /// `out[0]` is 0 for an empty tape, else 1, and `out[1]`, `out[2]` the raised ends.
        pub fn non_blank(&self, out: &mut Out) -> u8 {
            ask!(self, tm_chain_non_blank, out)
        }

        /// `out[0]` is the number of non-blank cells.
        pub fn count(&self, out: &mut Out) -> u8 {
            ask!(self, tm_chain_count, out)
        }

        /// Fills `cells` with the symbols from `from` on.
        pub fn window(&self, from: i64, cells: &mut [u8], out: &mut Out) -> u8 {
            ask!(self, tm_chain_window, from, cells.as_mut_ptr(), cells.len(), out)
        }

        /// Fills the first places of `runs` with the left side's, the topmost last; `out[0]` is how many.
        pub fn left(&self, runs: &mut [Run], out: &mut Out) -> u8 {
            ask!(self, tm_chain_left, runs.as_mut_ptr(), runs.len(), out)
        }

        /// The same of the right side.
        pub fn right(&self, runs: &mut [Run], out: &mut Out) -> u8 {
            ask!(self, tm_chain_right, runs.as_mut_ptr(), runs.len(), out)
        }
    }
}

// SAFETY of every call below: as above.
mod parts {
    use super::{Out, sys};

    /// `out[0]` is the word of an entry, of none where `defined` is 0.
    pub fn packed_new(defined: u8, write: u8, dir: u8, next: u16, stride: u64, out: &mut Out) -> u8 {
        unsafe { sys::tm_packed_new(defined, write, dir, next, stride, out) }
    }

    /// A word's parts: whether it is defined, move, write, next state, row.
    pub fn packed(word: u64, out: &mut Out) -> u8 {
        unsafe { sys::tm_packed(word, out) }
    }

    /// A word's action, defined or not: next state, writes, moves.
    pub fn packed_action(word: u64, out: &mut Out) -> u8 {
        unsafe { sys::tm_packed_action(word, out) }
    }

    /// A word's entry, as [`super::lookup`] gives one.
    pub fn packed_entry(word: u64, out: &mut Out) -> u8 {
        unsafe { sys::tm_packed_entry(word, out) }
    }

    /// `out[0]` is 0 for a glyph that is missing, else 1, and `out[1]` its symbol.
    pub fn symbol_for(glyphs: &[u32], glyph: u32, out: &mut Out) -> u8 {
        unsafe { sys::tm_symbol_for(glyphs.as_ptr(), glyphs.len(), glyph, out) }
    }

    /// `out[0]` is 1 for a symbol that is flagged as input, else 0.
    pub fn is_input(flags: &[u8], symbol: u8, out: &mut Out) -> u8 {
        unsafe { sys::tm_is_input(flags.as_ptr(), flags.len(), symbol, out) }
    }
}

/// The position that a raised number (position + 2^63) stands for.
pub fn lowered(raised: u64) -> i64 {
    (raised ^ (1 << 63)) as i64
}
