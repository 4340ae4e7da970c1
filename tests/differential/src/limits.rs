//! Sizes, words, buffers, fuels and steps at their limits.

use crate::case::{Act, Asking, Begin, NO_RULE, Subject, Words};
use crate::damage::every_operation;
use crate::generate::{self, one_tape};
use crate::law::{Engine, MAX_CELLS, MAX_STEPS, MAX_WORD, Sizes};
use crate::port::{self, View};
use crate::runner::Runner;
use crate::runs::{L, N, R, alternating, case_of, fast, listing, run, walkers};
use crate::tally::OUT;

pub fn limits(r: &mut Runner) {
    buffers_at_limits(r);
    fuel_at_limits(r);
    sizes_at_limits(r);
    words_at_limits(r);
    cells_at_limits(r);
    if r.scale >= 5 {
        largest_tables(r);
    }
}

/// Buffers one short, just enough, and doubling just in them or just not.
fn buffers_at_limits(r: &mut Runner) {
    for tapes in 1..=3 {
        for word in [0, 1, 5, 100] {
            for short in 0..=3 {
                for lacking in [0, 1, 64] {
                    let mut rng = r.rng();
                    let mut room = [32 + word, 32, 32];
                    if short < 3 {
                        room[short] -= 1;
                    }
                    room[tapes..].fill(lacking);
                    let subject = walkers(&[R, L, R][..tapes], 2);
                    let begin = Begin::Fresh { word: vec![1; word], room };
                    let acts = every_operation(&mut rng);
                    r.case(&case_of(&subject, begin, acts, Asking::Some(4), rng.next()));
                }
            }
        }
    }
    let moves: [&[u8]; 9] = [&[R], &[L], &[R, R], &[L, R], &[R, N], &[N, L], &[R, L, R], &[N, N, L], &[L, L, N]];
    for steps in moves {
        for word in [0, 3] {
            for doublings in 0..4 {
                for tape in 0..steps.len() {
                    for less in [0, 1, 2] {
                        let mut rng = r.rng();
                        let mut room = [4000; 3];
                        let least = if tape == 0 { 32 + word } else { 32 };
                        room[tape] = (least << doublings) - less;
                        if room[tape] < least {
                            continue;
                        }
                        let begin = Begin::Fresh { word: vec![0; word], room };
                        let mut acts = vec![run(10), run(3000), run(0), Act::Step, run(1), fast(100), fast(0)];
                        if less == 2 {
                            acts = vec![Act::Step; 40];
                        }
                        r.case(&case_of(&walkers(steps, 2), begin, acts, Asking::Some(4), rng.next()));
                    }
                }
            }
        }
    }
}

/// Fuel up to 2^62 and beyond it, steps up to 2^62 and beyond.
fn fuel_at_limits(r: &mut Runner) {
    let walk = one_tape(2, 1, &[(0, 0, 1, R, 0)]);
    let stay = one_tape(2, 1, &[(0, 0, 0, N, 0)]);
    let busy = alternating(R);
    let halts = listing();
    for subject in [&walk, &stay, &busy, &halts, &walkers(&[N, N], 1), &walkers(&[R, L, N], 2)] {
        let fuels = [0, 1, MAX_STEPS - 1, MAX_STEPS, MAX_STEPS + 1, 1 << 63, u64::MAX - 1, u64::MAX];
        for fuel in fuels {
            let begin = || Begin::Fresh { word: vec![], room: [40, 40, 40] };
            let dirt = r.rng().next();
            r.case(&case_of(subject, begin(), vec![run(fuel), run(fuel), Act::Step, run(fuel)], Asking::Some(2), dirt));
            r.case(&case_of(subject, begin(), vec![fast(fuel), fast(fuel)], Asking::Some(2), dirt));
        }
        for below in [0, 1, 2, 5, 20] {
            for steps in [MAX_STEPS - below, MAX_STEPS + below, u64::MAX - below, (1 << 63) + below] {
                let mut engine: Engine = [7; 16];
                engine[0] = steps;
                for t in 0..3 {
                    engine[1 + 5 * t..6 + 5 * t].copy_from_slice(&[32, 16, 16, 16, 16]);
                }
                let begin = || Begin::Outside { state: 0, engine, cells: [vec![0; 40], vec![0; 40], vec![0; 40]] };
                for fuel in [0, 1, below, below + 1, u64::MAX - steps, (u64::MAX - steps).wrapping_add(1), u64::MAX] {
                    let dirt = r.rng().next();
                    r.case(&case_of(subject, begin(), vec![run(fuel), fast(fuel), Act::Step], Asking::Some(2), dirt));
                }
                let dirt = r.rng().next();
                r.case(&case_of(subject, begin(), vec![Act::Step; 24], Asking::Some(2), dirt));
            }
        }
    }
}

/// Many states and many symbols.
fn sizes_at_limits(r: &mut Runner) {
    let sizes = [
        (1, 256, 1),
        (1, 256, 300),
        (1, 1, 65_536),
        (1, 2, 65_536),
        (2, 256, 1),
        (3, 16, 2),
        (3, 1, 65_536),
        (2, 1, 1),
        (1, 255, 3),
        (2, 2, 16_384),
        (3, 40, 1),
    ];
    for (tapes, symbols, states) in sizes {
        for round in 0..3 {
            let mut rng = r.rng();
            let sizes = Sizes { tapes, symbols, states, start: rng.pick(&[0, states - 1, states / 2]) };
            let subject = Subject::new(sizes, generate::table(&mut rng, &sizes));
            let word: Vec<u8> = match round {
                0 => (0..symbols).map(|a| a as u8).collect(),
                1 => vec![(symbols - 1) as u8; 3],
                _ => vec![],
            };
            let begin = Begin::Fresh { word, room: [700, 300, 300] };
            let mut acts = vec![Act::Check, Act::Pack { more: 0 }, run(50), fast(50), Act::Step, run(400), fast(400)];
            acts.push(Act::Fast {
                rule: NO_RULE,
                fuel: 1,
                words: Words::Changed(subject.words.len().max(1) - 1, 1 << 40),
            });
            r.case(&case_of(&subject, begin, acts, Asking::Some(2), rng.next()));
            // The last state, from outside.
            let mut begin = generate::fitting(&mut rng, &sizes);
            if let Begin::Outside { state, .. } = &mut begin {
                *state = (states - 1) as u16;
            }
            r.case(&case_of(&subject, begin, vec![Act::Step, run(20), fast(20)], Asking::Some(2), rng.next()));
        }
    }
}

/// Words of the greatest length, and symbols just outside the alphabet.
fn words_at_limits(r: &mut Runner) {
    let subject = one_tape(2, 2, &[(0, 0, 1, R, 1), (1, 0, 0, R, 0), (0, 1, 0, R, 1), (1, 1, 1, L, 0)]);
    for len in [MAX_WORD - 1, MAX_WORD, MAX_WORD + 1] {
        for more in [31, 32, 33] {
            let mut rng = r.rng();
            let word: Vec<u8> = (0..len).map(|_| rng.below(2) as u8).collect();
            let begin = Begin::Fresh { word, room: [len + more, 0, 0] };
            r.case(&case_of(&subject, begin, vec![run(1000), fast(1000), Act::Step], Asking::Some(4), rng.next()));
        }
    }
    for symbols in [1, 2, 3, 200, 255] {
        let sizes = Sizes { tapes: 1, symbols, states: 1, start: 0 };
        let subject = Subject::new(sizes, vec![0; 8 * sizes.entries()]);
        for places in [&[0][..], &[9], &[4], &[3, 5], &[9, 0], &[0, 1, 2]] {
            for (symbol, room) in [(symbols, 42), (255, 42), (symbols, 41), (symbols, 0)] {
                let mut word = vec![0; 10];
                places.iter().for_each(|&i| word[i] = symbol as u8);
                let dirt = r.rng().next();
                r.case(&case_of(&subject, Begin::Fresh { word, room: [room, 0, 0] }, vec![run(3)], Asking::None, dirt));
            }
        }
    }
    // Too long, with a wrong symbol and too small a buffer besides: the first refusal is given.
    let word = vec![9; MAX_WORD + 1];
    r.case(&case_of(&subject, Begin::Fresh { word, room: [0, 0, 0] }, vec![], Asking::None, 5));
    let word = vec![9; MAX_WORD];
    r.case(&case_of(&subject, Begin::Fresh { word, room: [0, 0, 0] }, vec![], Asking::None, 5));
}

/// Cells buffers of 2^30 bytes and one more. The memory is only ever mapped, not filled: neither
/// side may touch more than the first cells of it.
fn cells_at_limits(r: &mut Runner) {
    let layout = std::alloc::Layout::array::<u8>(MAX_CELLS + 1).expect("fits");
    // SAFETY: the layout is not empty; the memory is zeroed and freed below.
    let memory = unsafe { std::alloc::alloc_zeroed(layout) };
    if memory.is_null() {
        println!("no memory for a buffer over 2^30: left out");
        return;
    }
    let subject = listing();
    let three = walkers(&[R, L, R], 2);
    for (len, refused) in [(MAX_CELLS, 0), (MAX_CELLS + 1, 11)] {
        // SAFETY: the memory has that many bytes, and no other slice of it is alive.
        let cells = || unsafe { std::slice::from_raw_parts_mut(memory, len) };
        let (s, t, w) = (subject.sizes, &subject.table, &subject.words);
        let value = || -> (u16, Engine) {
            let mut engine = [0; 16];
            engine[1..6].copy_from_slice(&[32, 16, 16, 16, 16]);
            (0, engine)
        };
        let ((mut state, mut engine), mut out) = (value(), OUT);
        let result = port::new(s, t, &[1], [cells(), &mut [], &mut []], &mut state, &mut engine, &mut out);
        r.fact(result == refused, &format!("a fresh engine in {len} cells: {result}"));
        let (mut state, mut engine) = value();
        let result = port::step(s, t, [cells(), &mut [], &mut []], &mut state, &mut engine, &mut out);
        r.fact(result == refused, &format!("step in {len} cells: {result}"));
        let (mut state, mut engine) = value();
        let result = port::run(s, t, [cells(), &mut [], &mut []], &mut state, &mut engine, (NO_RULE, 3), &mut out);
        r.fact(result == refused, &format!("run in {len} cells: {result}"));
        let (mut state, mut engine) = value();
        let result =
            port::run_packed(s, t, w, [cells(), &mut [], &mut []], &mut state, &mut engine, (NO_RULE, 3), &mut out);
        r.fact(result == refused, &format!("fast run in {len} cells: {result}"));
        let (state, engine) = value();
        let view = View { sizes: s, table: t, cells: [cells(), &[], &[]], state, engine: &engine };
        let results = [
            view.get(0, 0, &mut out),
            view.non_blank(0, &mut out),
            view.count(0, &mut out),
            view.window(0, 0, &mut [1; 4], &mut out),
            view.find(0, 0, 0, &mut out),
        ];
        r.fact(results == [refused; 5], &format!("questions in {len} cells: {results:?}"));
        // A value that does not fit and too much fuel besides: 11 comes first, then 12.
        let (mut state, mut engine) = (9, [7; 16]);
        let result =
            port::run(s, t, [cells(), &mut [], &mut []], &mut state, &mut engine, (NO_RULE, u64::MAX), &mut out);
        r.fact(result == refused.max(11) + u8::from(refused == 0), &format!("11 before 12 in {len} cells: {result}"));
        // A lacking tape's buffer may have any length; a later tape's may not.
        let (mut state, mut engine) = value();
        let (mut a, mut b) = ([0; 40], [0; 40]);
        let result = port::run(s, t, [&mut a, &mut b, cells()], &mut state, &mut engine, (NO_RULE, 3), &mut out);
        r.fact(result == 0, &format!("a lacking tape's buffer of {len} cells: {result}"));
        let (s, t) = (three.sizes, &three.table);
        let result = port::new(s, t, &[1], [&mut a, &mut b, cells()], &mut state, &mut engine, &mut out);
        r.fact(result == refused, &format!("a third tape's buffer of {len} cells: {result}"));
        // SAFETY: as above.
        let far = unsafe { std::slice::from_raw_parts(memory, len) };
        let clean = far[64..4096].iter().chain(&far[len - 4096..]).all(|&c| c == 0);
        r.fact(clean, "cells past the length stay");
    }
    // SAFETY: made above with this layout.
    unsafe { std::alloc::dealloc(memory, layout) };
}

/// Tables of 128 MiB.
pub fn largest_tables(r: &mut Runner) {
    for (tapes, symbols, states) in [(1, 256, 65_536), (3, 256, 1), (2, 256, 256)] {
        let mut rng = r.rng();
        let sizes = Sizes { tapes, symbols, states, start: states - 1 };
        let table = generate::table(&mut rng, &sizes);
        let subject = Subject::new(sizes, table);
        let begin = Begin::Fresh { word: vec![1, 255, 0, 7], room: [300, 300, 300] };
        let acts = vec![Act::Pack { more: 0 }, run(300), fast(300), Act::Step];
        r.case(&case_of(&subject, begin, acts, Asking::None, rng.next()));
        let mut table = subject.table.clone();
        drop(subject);
        let last = table.len() - 8;
        table[last..].copy_from_slice(&[1, 0, 0, 0, 0, 0, 27, 0]);
        let subject = Subject::new(sizes, table);
        let begin = Begin::Fresh { word: vec![], room: [300, 300, 300] };
        r.case(&case_of(&subject, begin, vec![Act::Check], Asking::None, rng.next()));
    }
}
