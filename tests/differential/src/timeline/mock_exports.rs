//! The mock's timeline with the signatures of the port's library.

use std::slice::{from_raw_parts, from_raw_parts_mut};

use super::mock::{call, good, new};
use super::mock_engines::{OnCells, OnRuns, cells_slot};
use crate::chain::mock::{Places, load, numbers, store as put_runs};
use crate::mock::exports::number as result;
use crate::mock::{Answer, Engine, accept, fault, refuse, shared};

type Times = [u64; 4];

/// The machine's numbers with a call's or a new timeline's.
type Numbers = ([u64; 4], u64, u64);

fn on_cells(
    (sizes, a, b): Numbers,
    which: Option<u8>,
    table: &[u8],
    cells: [&mut [u8]; 3],
    store: &mut [u8],
    (state, engine): (&mut u16, &mut [u64; 16]),
    times: &mut Times,
    out: &mut [u64; 8],
) -> Answer<()> {
    let m = accept(sizes, table)?;
    let size = cells_slot(&m, &cells);
    if fault(111) && which.is_some() && !good(times, engine[0]) {
        return refuse(14);
    }
    let loaded = Engine::load(&m, *state, engine, shared(&cells))?;
    let mut d = OnCells { m: &m, engine: loaded, cells };
    match which {
        None => new(&d, store, size, times, a, b),
        Some(which) => {
            call(&mut d, store, size, times, (which, b), out)?;
            d.engine.store(&m, state, engine);
            Ok(())
        }
    }
}

/// Run places lent for writing.
type Lanes<'a> = (&'a mut [u8], &'a mut [u64], &'a mut [u8], &'a mut [u64]);

fn on_runs(
    (sizes, a, b): Numbers,
    which: Option<u8>,
    table: &[u8],
    (ls, ll, rs, rl): Lanes,
    store: &mut [u8],
    (state, cur, engine): (&mut u16, &mut u8, &mut [u64; 7]),
    times: &mut Times,
    out: &mut [u64; 8],
) -> Answer<()> {
    let m = accept(sizes, table)?;
    if fault(111) && which.is_some() && !good(times, engine[0]) {
        return refuse(14);
    }
    let (left, right) = (Places(ls, ll), Places(rs, rl));
    let places = [left.number(), right.number()];
    let chain = load(&m, *state, *cur, engine, &left, &right)?;
    let size = 128 + 9 * (places[0] + places[1]);
    let mut d = OnRuns { m: &m, chain, places };
    match which {
        None => new(&d, store, size, times, a, b),
        Some(which) => {
            call(&mut d, store, size, times, (which, b), out)?;
            put_runs(&d.chain.left, ls, ll);
            put_runs(&d.chain.right, rs, rl);
            (*state, *cur, *engine) = (d.chain.state, d.chain.cur, numbers(&d.chain));
            Ok(())
        }
    }
}

macro_rules! lent {
    ($at:expr, $len:expr) => {
        unsafe { from_raw_parts_mut($at.cast_mut(), $len) }
    };
}

#[rustfmt::skip]
pub unsafe extern "C" fn tm_sim_timeline_new(
    tapes: u64, symbols: u64, states: u64, start: u64, table: *const u8, table_len: usize,
    c0: *const u8, c0_len: usize, c1: *const u8, c1_len: usize, c2: *const u8, c2_len: usize,
    store: *mut u8, store_len: usize,
    mut state: u16, engine: *const [u64; 16], times: *mut Times, most: u64, every: u64, out: *mut [u64; 8],
) -> u8 {
    let (table, store) = unsafe { (from_raw_parts(table, table_len), from_raw_parts_mut(store, store_len)) };
    let cells = [lent!(c0, c0_len), lent!(c1, c1_len), lent!(c2, c2_len)];
    let (mut engine, times, out) = unsafe { (*engine, &mut *times, &mut *out) };
    let numbers = ([tapes, symbols, states, start], most, every);
    result(on_cells(numbers, None, table, cells, store, (&mut state, &mut engine), times, out), out)
}

#[rustfmt::skip]
pub unsafe extern "C" fn tm_sim_timeline_call(
    tapes: u64, symbols: u64, states: u64, start: u64, table: *const u8, table_len: usize,
    c0: *mut u8, c0_len: usize, c1: *mut u8, c1_len: usize, c2: *mut u8, c2_len: usize,
    store: *mut u8, store_len: usize,
    state: *mut u16, engine: *mut [u64; 16], times: *mut Times, which: u8, number: u64, out: *mut [u64; 8],
) -> u8 {
    let (table, store) = unsafe { (from_raw_parts(table, table_len), from_raw_parts_mut(store, store_len)) };
    let cells = unsafe { [from_raw_parts_mut(c0, c0_len), from_raw_parts_mut(c1, c1_len), from_raw_parts_mut(c2, c2_len)] };
    let (state, engine, times, out) = unsafe { (&mut *state, &mut *engine, &mut *times, &mut *out) };
    let numbers = ([tapes, symbols, states, start], 0, number);
    result(on_cells(numbers, Some(which), table, cells, store, (state, engine), times, out), out)
}

#[rustfmt::skip]
pub unsafe extern "C" fn tm_chain_timeline_new(
    tapes: u64, symbols: u64, states: u64, start: u64, table: *const u8, table_len: usize,
    ls: *const u8, ls_len: usize, ll: *const u64, ll_len: usize, rs: *const u8, rs_len: usize, rl: *const u64, rl_len: usize,
    store: *mut u8, store_len: usize, mut state: u16, mut cur: u8, engine: *const [u64; 7], times: *mut Times,
    most: u64, every: u64, out: *mut [u64; 8],
) -> u8 {
    let (table, store) = unsafe { (from_raw_parts(table, table_len), from_raw_parts_mut(store, store_len)) };
    let lanes = (lent!(ls, ls_len), lent!(ll, ll_len), lent!(rs, rs_len), lent!(rl, rl_len));
    let (mut engine, times, out) = unsafe { (*engine, &mut *times, &mut *out) };
    let numbers = ([tapes, symbols, states, start], most, every);
    result(on_runs(numbers, None, table, lanes, store, (&mut state, &mut cur, &mut engine), times, out), out)
}

#[rustfmt::skip]
pub unsafe extern "C" fn tm_chain_timeline_call(
    tapes: u64, symbols: u64, states: u64, start: u64, table: *const u8, table_len: usize,
    ls: *mut u8, ls_len: usize, ll: *mut u64, ll_len: usize, rs: *mut u8, rs_len: usize, rl: *mut u64, rl_len: usize,
    store: *mut u8, store_len: usize, state: *mut u16, cur: *mut u8, engine: *mut [u64; 7], times: *mut Times,
    which: u8, number: u64, out: *mut [u64; 8],
) -> u8 {
    let (table, store) = unsafe { (from_raw_parts(table, table_len), from_raw_parts_mut(store, store_len)) };
    let lanes = unsafe {
        (
            from_raw_parts_mut(ls, ls_len), from_raw_parts_mut(ll, ll_len),
            from_raw_parts_mut(rs, rs_len), from_raw_parts_mut(rl, rl_len),
        )
    };
    let (state, cur, engine, times, out) = unsafe { (&mut *state, &mut *cur, &mut *engine, &mut *times, &mut *out) };
    let numbers = ([tapes, symbols, states, start], 0, number);
    result(on_runs(numbers, Some(which), table, lanes, store, (state, cur, engine), times, out), out)
}
