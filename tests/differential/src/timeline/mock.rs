//! A stand-in for the port's timeline, written from document 01 alone over the mock's engines, with
//! slots of bytes: see `crate::mock`, which lists the faults.

use std::cell::Cell;

use crate::mock::{Answer, Outcome, fault, refuse, tell};

const LIMIT: u128 = 1 << 62;

/// An engine of the mock as a timeline drives it.
pub(super) trait Drive {
    fn steps(&self) -> u64;
    fn state(&self) -> u16;
    /// Runs; with `proves`, ends at a proved loop.
    fn run(&mut self, fuel: u64, proves: bool) -> Outcome;
    fn save(&self, slot: &mut [u8]);
    /// Takes the engine of a slot, where it holds one of that step.
    fn restore(&mut self, slot: &[u8], step: u64) -> bool;

    /// "Each advance runs without the never test, then tests it with fuel 0."
    fn advance(&mut self, fuel: u64) -> Outcome {
        match self.run(fuel, fault(90)) {
            Outcome::Fuel => self.run(0, true),
            other => other,
        }
    }
}

fn due(times: &[u64; 4]) -> u128 {
    let [_, first, count, every] = *times;
    if fault(101) {
        return u128::from(first.wrapping_add(count.wrapping_mul(every)));
    }
    let late = fault(150) && every > 65_536 && !every.is_power_of_two();
    u128::from(first) + u128::from(count) * u128::from(every) + u128::from(late)
}

/// Records, and thins where there are more than m.
fn record(d: &impl Drive, store: &mut [u8], size: usize, times: &mut [u64; 4]) {
    let count = times[2] as usize;
    if (count + 1) * size > store.len() {
        return; // only with a fault
    }
    d.save(&mut store[count * size..(count + 1) * size]);
    times[2] += 1;
    let early = fault(149) && (257..=510).contains(&times[0]);
    if times[2] > times[0] - u64::from(early) {
        let kept = if fault(107) { count.div_ceil(2) } else { count / 2 + 1 };
        for i in 1..kept {
            let from = (2 * i + usize::from(fault(85))).min(count);
            store.copy_within(from * size..(from + 1) * size, i * size);
        }
        times[2] = kept as u64;
        if !fault(86) {
            times[3] *= 2;
        }
    }
}

pub(super) fn good(times: &[u64; 4], steps: u64) -> bool {
    let [most, first, count, every] = *times;
    let most_ok = most >= 1 && most <= if fault(99) { 513 } else { 512 };
    let every_ok = (1..=1 << 63).contains(&every);
    let count_ok = count >= 1 && (count <= most || fault(100));
    most_ok && every_ok && count_ok && (first <= steps || fault(112)) && u128::from(steps) <= due(times)
}

fn go_on(d: &mut impl Drive, store: &mut [u8], size: usize, times: &mut [u64; 4], target: u64) -> Outcome {
    loop {
        let now = d.steps();
        if u128::from(now) == due(times) {
            let halted = fault(93) && matches!(d.run(0, false), Outcome::Halted);
            if !halted {
                record(d, store, size, times);
            }
        }
        let stop = due(times).min(u128::from(target)).max(u128::from(now)) as u64;
        let began = fault(91).then(|| d.advance(0));
        let outcome = d.advance(stop - now);
        let reached = d.steps();
        if reached >= target || reached == now || fault(90) && matches!(outcome, Outcome::Stay | Outcome::Chain(_)) {
            if fault(92) && u128::from(reached) == due(times) {
                record(d, store, size, times);
            }
            FULL.set(matches!(outcome, Outcome::Full));
            return began.unwrap_or(outcome);
        }
    }
}

thread_local! {
    /// Whether the last advance was full (only for faults).
    static FULL: Cell<bool> = const { Cell::new(false) };
    /// The last answer (only for a fault).
    static LAST: Cell<[u64; 8]> = const { Cell::new([0; 8]) };
}

/// A call: refusals from 14 on, then the way to the target.
pub(super) fn call(
    d: &mut impl Drive,
    store: &mut [u8],
    size: usize,
    times: &mut [u64; 4],
    (which, n): (u8, u64),
    out: &mut [u64; 8],
) -> Answer<()> {
    let steps = d.steps();
    let target = match which {
        0 => u128::from(n),
        1 if fault(106) => u128::from(steps.wrapping_add(n)),
        1 => u128::from(steps) + u128::from(n),
        3.. if fault(115) => u128::from(n),
        _ if fault(88) => u128::from(steps.wrapping_sub(n)),
        _ => u128::from(steps.saturating_sub(n)),
    };
    let short = (store.len() / size) as u64 <= times[0] - u64::from(fault(94) && times[0] > 0);
    if fault(95) && target > LIMIT {
        return refuse(13);
    }
    if fault(96) && short {
        return refuse(15);
    }
    if !good(times, steps) {
        return refuse(14);
    }
    if short {
        return refuse(15);
    }
    if target > LIMIT || fault(114) && target == LIMIT {
        return refuse(13);
    }
    let target = (target as u64).max(times[1]);
    if fault(105) && times[1] < steps {
        *out = LAST.get();
        return Ok(());
    }
    if target == steps {
        if fault(84) && u128::from(steps) == due(times) {
            record(d, store, size, times);
        }
        let outcome = if fault(102) && FULL.get() { Outcome::Full } else { d.advance(0) };
        tell(&outcome, d.state(), d.steps(), out);
        return Ok(());
    }
    if target < steps {
        let up = if fault(87) { times[3] - 1 } else { 0 };
        let slot = ((target - times[1].min(target)).saturating_add(up) / times[3]).min(times[2] - 1) as usize;
        if !d.restore(&store[slot * size..(slot + 1) * size], times[1] + slot as u64 * times[3]) {
            if fault(109) {
                out[1] = 0;
            }
            return refuse(16);
        }
    }
    let outcome = go_on(d, store, size, times, target);
    tell(&outcome, d.state(), d.steps(), out);
    LAST.set(*out);
    Ok(())
}

/// A new timeline: refusals from 14 on, then slot 0.
pub(super) fn new(
    d: &impl Drive,
    store: &mut [u8],
    size: usize,
    times: &mut [u64; 4],
    most: u64,
    every: u64,
) -> Answer<()> {
    let interval = if fault(108) { 1 << 33 } else { 1 << 32 };
    if !(1..=if fault(99) { 513 } else { 512 }).contains(&most) || !(1..=interval).contains(&every) {
        return refuse(14);
    }
    if (store.len() / size) as u64 <= most - u64::from(fault(94)) {
        return refuse(15);
    }
    d.save(&mut store[..size]);
    if fault(113) && store.len() / size > 1 {
        d.save(&mut store[size..2 * size]);
    }
    *times = [most, d.steps(), 1, every];
    FULL.set(false);
    Ok(())
}
