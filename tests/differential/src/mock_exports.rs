//! The mock's plain engine with the signatures of the port's library.

use std::slice::{from_raw_parts, from_raw_parts_mut};

use super::*;

/// A slice lent for reading.
type Lent = (*const u8, usize);
/// A slice lent for writing.
type LentMut = (*mut u8, usize);

unsafe fn read<'a>((at, len): Lent) -> &'a [u8] {
    unsafe { from_raw_parts(at, len) }
}

unsafe fn write<'a>((at, len): LentMut) -> &'a mut [u8] {
    unsafe { from_raw_parts_mut(at, len) }
}

/// The number of an answer, its place in `out[0]`.
pub(crate) fn number(answer: Answer<()>, out: &mut [u64; 8]) -> u8 {
    match answer {
        Ok(()) => 0,
        Err(No(number, place)) => {
            if let Some(place) = place {
                out[0] = place;
            }
            number
        }
    }
}

pub unsafe extern "C" fn tm_check(
    tapes: u64, symbols: u64, states: u64, start: u64, table: *const u8, table_len: usize, out: *mut [u64; 8],
) -> u8 {
    let (table, out) = unsafe { (read((table, table_len)), &mut *out) };
    number(check([tapes, symbols, states, start], table), out)
}

pub unsafe extern "C" fn tm_pack(
    tapes: u64, symbols: u64, states: u64, start: u64, table: *const u8, table_len: usize,
    words: *mut u64, words_len: usize, out: *mut [u64; 8],
) -> u8 {
    let (table, out) = unsafe { (read((table, table_len)), &mut *out) };
    let words = unsafe { from_raw_parts_mut(words, words_len) };
    number(pack([tapes, symbols, states, start], table, words), out)
}

pub unsafe extern "C" fn tm_encode(
    glyphs: *const u32, glyphs_len: usize, flags: *const u8, flags_len: usize, word: *const u32, word_len: usize,
    symbols: *mut u8, symbols_len: usize, out: *mut [u64; 8],
) -> u8 {
    let (glyphs, word) = unsafe { (from_raw_parts(glyphs, glyphs_len), from_raw_parts(word, word_len)) };
    let (flags, symbols, out) = unsafe { (read((flags, flags_len)), write((symbols, symbols_len)), &mut *out) };
    number(encode(glyphs, flags, word, symbols), out)
}

pub unsafe extern "C" fn tm_lookup(
    tapes: u64, symbols: u64, states: u64, start: u64, table: *const u8, table_len: usize,
    state: u16, a0: u8, a1: u8, a2: u8, out: *mut [u64; 8],
) -> u8 {
    let (table, out) = unsafe { (read((table, table_len)), &mut *out) };
    let found = lookup([tapes, symbols, states, start], table, state, [a0, a1, a2]);
    number(found.map(|entry| tell_entry(entry, out)), out)
}

pub unsafe extern "C" fn tm_packed_new(defined: u8, write: u8, dir: u8, next: u16, stride: u64, out: *mut [u64; 8]) -> u8 {
    let undefined = defined == 0 || fault(140) && defined > 1;
    unsafe { (*out)[0] = if undefined { 3 } else { packed_new(write, dir, next, stride) } };
    0
}

pub unsafe extern "C" fn tm_packed(word: u64, out: *mut [u64; 8]) -> u8 {
    let (e, out) = (action(word), unsafe { &mut *out });
    let row = if fault(141) { word >> 32 & 0x003f_ffff } else { word >> 32 };
    out[..5].copy_from_slice(&[u64::from(unpack(word).is_some()), u64::from(e.moves[0]), u64::from(e.write[0]), u64::from(e.next), row]);
    0
}

pub unsafe extern "C" fn tm_packed_action(word: u64, out: *mut [u64; 8]) -> u8 {
    let (e, out) = (action(word), unsafe { &mut *out });
    out[0] = u64::from(e.next);
    for i in 0..3 {
        (out[1 + i], out[4 + i]) = (u64::from(e.write[i]), u64::from(e.moves[i]));
    }
    0
}

pub unsafe extern "C" fn tm_packed_entry(word: u64, out: *mut [u64; 8]) -> u8 {
    tell_entry(unpack(word), unsafe { &mut *out });
    0
}

pub unsafe extern "C" fn tm_symbol_for(glyphs: *const u32, glyphs_len: usize, glyph: u32, out: *mut [u64; 8]) -> u8 {
    let (glyphs, out) = unsafe { (from_raw_parts(glyphs, glyphs_len), &mut *out) };
    match symbol_for(glyphs, glyph) {
        Some(symbol) => out[..2].copy_from_slice(&[1, u64::from(symbol)]),
        None => out[0] = 0,
    }
    0
}

pub unsafe extern "C" fn tm_is_input(flags: *const u8, flags_len: usize, symbol: u8, out: *mut [u64; 8]) -> u8 {
    unsafe { (*out)[0] = u64::from(is_input(read((flags, flags_len)), symbol)) };
    0
}

pub unsafe extern "C" fn tm_sim_new(
    tapes: u64, symbols: u64, states: u64, start: u64, table: *const u8, table_len: usize,
    word: *const u8, word_len: usize,
    c0: *mut u8, c0_len: usize, c1: *mut u8, c1_len: usize, c2: *mut u8, c2_len: usize,
    state: *mut u16, engine: *mut [u64; 16], out: *mut [u64; 8],
) -> u8 {
    let (table, word, out) = unsafe { (read((table, table_len)), read((word, word_len)), &mut *out) };
    let cells = unsafe { [write((c0, c0_len)), write((c1, c1_len)), write((c2, c2_len))] };
    let (state, engine) = unsafe { (&mut *state, &mut *engine) };
    number(sim_new([tapes, symbols, states, start], table, word, cells, state, engine), out)
}

pub unsafe extern "C" fn tm_sim_step(
    tapes: u64, symbols: u64, states: u64, start: u64, table: *const u8, table_len: usize,
    c0: *mut u8, c0_len: usize, c1: *mut u8, c1_len: usize, c2: *mut u8, c2_len: usize,
    state: *mut u16, engine: *mut [u64; 16], out: *mut [u64; 8],
) -> u8 {
    let (table, out) = unsafe { (read((table, table_len)), &mut *out) };
    let cells = unsafe { [write((c0, c0_len)), write((c1, c1_len)), write((c2, c2_len))] };
    let (state, engine) = unsafe { (&mut *state, &mut *engine) };
    number(sim_step([tapes, symbols, states, start], table, cells, state, engine, out), out)
}

pub unsafe extern "C" fn tm_sim_run(
    tapes: u64, symbols: u64, states: u64, start: u64, table: *const u8, table_len: usize,
    c0: *mut u8, c0_len: usize, c1: *mut u8, c1_len: usize, c2: *mut u8, c2_len: usize,
    state: *mut u16, engine: *mut [u64; 16], rule: u64, fuel: u64, out: *mut [u64; 8],
) -> u8 {
    let (table, out) = unsafe { (read((table, table_len)), &mut *out) };
    let cells = unsafe { [write((c0, c0_len)), write((c1, c1_len)), write((c2, c2_len))] };
    let (state, engine) = unsafe { (&mut *state, &mut *engine) };
    number(sim_run([tapes, symbols, states, start], table, None, cells, state, engine, (rule, fuel), out), out)
}

pub unsafe extern "C" fn tm_sim_run_packed(
    tapes: u64, symbols: u64, states: u64, start: u64, table: *const u8, table_len: usize,
    words: *const u64, words_len: usize,
    c0: *mut u8, c0_len: usize, c1: *mut u8, c1_len: usize, c2: *mut u8, c2_len: usize,
    state: *mut u16, engine: *mut [u64; 16], rule: u64, fuel: u64, out: *mut [u64; 8],
) -> u8 {
    let (table, out) = unsafe { (read((table, table_len)), &mut *out) };
    let words = unsafe { from_raw_parts(words, words_len) };
    let cells = unsafe { [write((c0, c0_len)), write((c1, c1_len)), write((c2, c2_len))] };
    let (state, engine) = unsafe { (&mut *state, &mut *engine) };
    number(sim_run([tapes, symbols, states, start], table, Some(words), cells, state, engine, (rule, fuel), out), out)
}

pub unsafe extern "C" fn tm_sim_get(
    tapes: u64, symbols: u64, states: u64, start: u64, table: *const u8, table_len: usize,
    c0: *const u8, c0_len: usize, c1: *const u8, c1_len: usize, c2: *const u8, c2_len: usize,
    state: u16, engine: *const [u64; 16], tape: u64, at: i64, out: *mut [u64; 8],
) -> u8 {
    let (table, engine, out) = unsafe { (read((table, table_len)), &*engine, &mut *out) };
    let cells = unsafe { [read((c0, c0_len)), read((c1, c1_len)), read((c2, c2_len))] };
    let asked = question([tapes, symbols, states, start], table, cells, state, engine, tape, out);
    number(asked.map(|(t, cells)| out[0] = u64::from(get(t, cells, at))), out)
}

pub unsafe extern "C" fn tm_sim_non_blank(
    tapes: u64, symbols: u64, states: u64, start: u64, table: *const u8, table_len: usize,
    c0: *const u8, c0_len: usize, c1: *const u8, c1_len: usize, c2: *const u8, c2_len: usize,
    state: u16, engine: *const [u64; 16], tape: u64, out: *mut [u64; 8],
) -> u8 {
    let (table, engine, out) = unsafe { (read((table, table_len)), &*engine, &mut *out) };
    let cells = unsafe { [read((c0, c0_len)), read((c1, c1_len)), read((c2, c2_len))] };
    let asked = question([tapes, symbols, states, start], table, cells, state, engine, tape, out);
    let answered = asked.map(|(t, cells)| {
        let skipped = if fault(39) { t.low } else { 0 };
        let first = cells.iter().skip(skipped).position(|&c| c != 0).map(|i| i + skipped);
        match (first, cells.iter().rposition(|&c| c != 0)) {
            (Some(first), Some(last)) => out[..3].copy_from_slice(&[1, t.raised(first), t.raised(last)]),
            _ => out[0] = 0,
        }
    });
    number(answered, out)
}

pub unsafe extern "C" fn tm_sim_count(
    tapes: u64, symbols: u64, states: u64, start: u64, table: *const u8, table_len: usize,
    c0: *const u8, c0_len: usize, c1: *const u8, c1_len: usize, c2: *const u8, c2_len: usize,
    state: u16, engine: *const [u64; 16], tape: u64, out: *mut [u64; 8],
) -> u8 {
    let (table, engine, out) = unsafe { (read((table, table_len)), &*engine, &mut *out) };
    let cells = unsafe { [read((c0, c0_len)), read((c1, c1_len)), read((c2, c2_len))] };
    let asked = question([tapes, symbols, states, start], table, cells, state, engine, tape, out);
    let answered = asked.map(|(_, cells)| {
        out[0] = cells.iter().filter(|&&c| c != 0).count() as u64;
        if fault(24) && cells[cells.len() - 1] != 0 {
            out[0] += 1;
        }
    });
    number(answered, out)
}

pub unsafe extern "C" fn tm_sim_window(
    tapes: u64, symbols: u64, states: u64, start: u64, table: *const u8, table_len: usize,
    c0: *const u8, c0_len: usize, c1: *const u8, c1_len: usize, c2: *const u8, c2_len: usize,
    state: u16, engine: *const [u64; 16], tape: u64, from: i64,
    window: *mut u8, window_len: usize, out: *mut [u64; 8],
) -> u8 {
    let (table, engine, out) = unsafe { (read((table, table_len)), &*engine, &mut *out) };
    let cells = unsafe { [read((c0, c0_len)), read((c1, c1_len)), read((c2, c2_len))] };
    let window = unsafe { write((window, window_len)) };
    let asked = question([tapes, symbols, states, start], table, cells, state, engine, tape, out);
    let answered = asked.map(|(t, cells)| {
        for (i, cell) in window.iter_mut().enumerate() {
            match from.checked_add(i as i64) {
                None if fault(15) => {}
                at => *cell = at.map_or(0, |at| get(t, cells, at)),
            }
        }
    });
    number(answered, out)
}

pub unsafe extern "C" fn tm_sim_find(
    tapes: u64, symbols: u64, states: u64, start: u64, table: *const u8, table_len: usize,
    c0: *const u8, c0_len: usize, c1: *const u8, c1_len: usize, c2: *const u8, c2_len: usize,
    state: u16, engine: *const [u64; 16], tape: u64, from: i64, dir: u8, out: *mut [u64; 8],
) -> u8 {
    let (table, engine, out) = unsafe { (read((table, table_len)), &*engine, &mut *out) };
    let cells = unsafe { [read((c0, c0_len)), read((c1, c1_len)), read((c2, c2_len))] };
    let asked = question([tapes, symbols, states, start], table, cells, state, engine, tape, out);
    let answered = asked.map(|(t, cells)| match find(t, cells, from, dir) {
        Some(i) => out[..2].copy_from_slice(&[1, t.raised(i)]),
        None => out[0] = 0,
    });
    number(answered, out)
}
