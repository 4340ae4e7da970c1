//! Random values, places, calls and questions for the run-length engine.

use super::case::{Act, Begin, Question, Side as Places};
use super::law::{HEAD, HIGHEST, LEFT, LOWEST, MACROS, RIGHT, SLACK, STEPS, Side, Value, ZERO, runs_of};
use crate::generate::{Rng, fuel, rule, sizes as any_sizes};
use crate::law::{MAX_STEPS, Sizes};

/// Sizes of a machine with one tape; once in so many times, where that is not 0, of any.
pub fn sizes(rng: &mut Rng, most: u64, several: u64) -> Sizes {
    let any = several > 0 && rng.once_in(several);
    loop {
        let sizes = any_sizes(rng, most);
        if sizes.tapes == 1 || any {
            return sizes;
        }
    }
}

/// Numbers of symbols and of lengths for so many runs; seldom too few.
fn room(rng: &mut Rng, runs: usize) -> (usize, usize) {
    let places = match rng.below(12) {
        0 | 1 => runs,
        2 => runs + 1,
        3 => runs + 2,
        4 if rng.once_in(4) => runs.saturating_sub(1),
        4 | 5 => runs + 4,
        6 => 300,
        _ => runs + rng.below(40) as usize,
    };
    match rng.below(4) {
        0 => (places, places + rng.below(3) as usize),
        1 => (places + rng.below(3) as usize, places),
        _ => (places, places),
    }
}

/// Places for a fresh engine.
pub fn fresh(rng: &mut Rng, word: Vec<u8>) -> Begin {
    let (left, right) = (room(rng, 2), room(rng, runs_of(&word)));
    Begin::Fresh { word, left, right }
}

/// A fresh engine on a word of up to 3,000 symbols.
pub fn long(rng: &mut Rng, sizes: &Sizes) -> Begin {
    let (len, same) = (rng.log(32, 3000), rng.pick(&[0, 8, 15]));
    let mut word: Vec<u8> = Vec::new();
    for i in 0..len as usize {
        let again = i > 0 && rng.below(16) < same;
        word.push(if again { word[i - 1] } else { rng.below(sizes.symbols) as u8 });
    }
    fresh(rng, word)
}

/// So many random calls. `steps` is about the step that the engine has reached.
pub fn acts(rng: &mut Rng, sizes: &Sizes, count: u64, steps: u64) -> Vec<Act> {
    (0..count).map(|_| Act::Run { rule: rule(rng, sizes.states), fuel: fuel(rng, steps) }).collect()
}

/// A stack of runs of symbols below k, with at most so many cells, and its places full of dirt.
fn stack(rng: &mut Rng, symbols: u64, most: u64) -> (Places, u64) {
    let (mut side, mut left, mut below) = ((Vec::new(), Vec::new()), most, 0);
    let count = rng.pick(&[0, 0, 1, 1, 2, 3, 6, 12]);
    for i in 0..count {
        if symbols == 1 || left == 0 {
            break;
        }
        let shift = rng.between(1, symbols - 1);
        let symbol = ((u64::from(below) + shift) % symbols) as u8;
        let len = match rng.below(10) {
            0 => left,
            1 => rng.between(1, left),
            2 if i + 1 == count => left,
            _ => rng.between(1, left.min(9)),
        };
        left -= len;
        side.0.push(symbol);
        side.1.push(len);
        below = symbol;
    }
    let count = side.0.len();
    let (symbols, lengths) = room(rng, count);
    let dirt = (0..symbols.max(count) - count).map(|_| rng.next() as u8).collect::<Vec<_>>();
    side.0.extend(dirt);
    let dirt = (0..lengths.max(count) - count).map(|_| rng.next()).collect::<Vec<_>>();
    side.1.extend(dirt);
    (side, count as u64)
}

/// A number to `n`, often an end.
fn within(rng: &mut Rng, n: u64) -> u64 {
    match rng.below(6) {
        0 => 0,
        1 => n,
        2 => n / 2,
        _ => rng.between(0, n),
    }
}

/// An engine value that fits, set from outside.
pub fn fitting(rng: &mut Rng, sizes: &Sizes) -> Begin {
    let steps = match rng.below(8) {
        0 => 0,
        1 => MAX_STEPS,
        2 => MAX_STEPS - rng.below(100),
        3 => rng.below(MAX_STEPS),
        _ => rng.below(1000),
    };
    let low = ZERO - steps;
    let head = low + within(rng, 2 * steps);
    let lowest = low + within(rng, head - low);
    let highest = head + within(rng, ZERO + steps - head);
    let most = steps + SLACK;
    // To the left the furthest cell is at -most or above it, to the right at most or below.
    let (left, lefts) = stack(rng, sizes.symbols, most.min(head - low + SLACK));
    let (right, rights) = stack(rng, sizes.symbols, most.min(ZERO + most - head));
    let engine = [steps, within(rng, steps), lefts, rights, head, lowest, highest];
    let value = Value { state: rng.below(sizes.states) as u16, cur: rng.below(sizes.symbols) as u8, engine };
    Begin::Outside { value, left, right }
}

/// Breaks a value that fits in one or two places; now and then it still fits.
pub fn break_value(rng: &mut Rng, sizes: &Sizes, begin: &mut Begin) {
    let Begin::Outside { value, left, right } = begin else {
        return;
    };
    for _ in 0..rng.pick(&[1, 1, 1, 2]) {
        let (side, count) = if rng.once_in(2) { (&mut *left, LEFT) } else { (&mut *right, RIGHT) };
        let live = value.engine[count].min(side.0.len().min(side.1.len()) as u64);
        let at = if live == 0 { 0 } else { rng.below(live) as usize };
        let steps = value.engine[STEPS];
        match rng.below(10) {
            0 => value.state = rng.between(sizes.states.min(65_535), 65_535) as u16,
            1 => value.engine[STEPS] = rng.pick(&[MAX_STEPS + 1, 1 << 63, u64::MAX, steps / 2]),
            2 => value.cur = rng.between(sizes.symbols.min(255), 255) as u8,
            3 => value.engine[MACROS] = rng.pick(&[steps.wrapping_add(1), u64::MAX, 1 << 63]),
            4 => value.engine[rng.pick(&[HEAD, LOWEST, HIGHEST])] = odd_position(rng, value.engine[HEAD], steps),
            5 => value.engine[count] = rng.pick(&[live + 1, u64::MAX, live + (1 << 32), live + (1 << 63), 1 << 20]),
            6 if live > 0 => {
                let beyond = steps.saturating_add(SLACK + 1);
                side.1[at] = rng.pick(&[0, u64::MAX, 1 << 63, beyond, side.1[at].wrapping_neg()])
            }
            7 if live > 0 => side.0[at] = rng.pick(&[0, sizes.symbols.min(255) as u8, 255]),
            8 if live > 1 => side.0[at] = side.0[(at + 1) % live as usize],
            _ => {
                let keep = rng.below(side.1.len() as u64 + 1) as usize;
                side.1.truncate(keep);
            }
        }
    }
}

fn odd_position(rng: &mut Rng, head: u64, steps: u64) -> u64 {
    let beyond = steps.wrapping_add(1);
    rng.pick(&[
        head.wrapping_add(1),
        head.wrapping_sub(1),
        ZERO.wrapping_add(beyond),
        ZERO.wrapping_sub(beyond),
        head ^ ZERO,
        0,
        u64::MAX,
    ])
}

/// Positions worth asking for around the head.
fn positions(value: &Value) -> [i64; 16] {
    let [.., head, lowest, highest] = value.engine.map(|x| (x ^ ZERO) as i64);
    let near = |by: i64| head.wrapping_add(by);
    #[rustfmt::skip]
    let all = [
        near(0), near(1), near(-1), near(2), near(-2), near(5), near(-7), near(30), near(-30),
        lowest, highest, 0, i64::MIN, i64::MAX, i64::MIN + 1, i64::MAX - 1,
    ];
    all
}

/// One question.
pub fn question(rng: &mut Rng, value: &Value) -> Question {
    let at = match rng.below(4) {
        0 => rng.pick(&positions(value)).wrapping_add(rng.below(9) as i64 - 4),
        _ => rng.pick(&positions(value)),
    };
    match rng.below(6) {
        0 => Question::NonBlank,
        1 => Question::Count,
        2 => Question::Window { from: at, len: rng.below(40) as usize },
        3 => Question::Window { from: rng.pick(&[i64::MIN, i64::MAX - 3, at]), len: rng.below(8) as usize },
        _ => Question::Get { at },
    }
}

/// All questions about an engine that fits: also those around both ends of every run.
pub fn questions(value: &Value, (left, right): (Side, Side)) -> Vec<Question> {
    let mut all = vec![Question::NonBlank, Question::Count];
    let mut places: Vec<i64> = positions(value).to_vec();
    let head = (value.engine[HEAD] ^ ZERO) as i64;
    for (side, count, sign) in [(left, value.engine[LEFT], -1), (right, value.engine[RIGHT], 1)] {
        let mut far = head;
        for &len in side.1[..count as usize].iter().rev().take(12) {
            far += sign * len as i64;
            places.extend([far - 1, far, far + 1]);
        }
    }
    for at in places {
        all.push(Question::Get { at });
        all.push(Question::Window { from: at, len: 5 });
    }
    let windows = [(head - 40, 81), (head - 3, 0), (i64::MIN, 5), (i64::MAX - 2, 6), (i64::MAX, 3), (i64::MIN, 0)];
    all.extend(windows.map(|(from, len)| Question::Window { from, len }));
    all
}
