//! Cases of the timeline over both engines: the answers of the Rust's `Timeline`. Document 01's other settings change
//! no answer and no engine but its macro steps, so that lists with any settings can be held against them.

use super::{Line, REACH, chain, plain};
use crate::checkpoint::{Engine, Timeline};
use crate::generate::Rng;
use crate::law::MAX_STEPS;
use crate::outcome::Outcome;
use crate::timeline::generate::{calls, settings};
use crate::timeline::kind::{Kind, OnCells, OnRuns};
use crate::timeline::law::{COUNT, Call, EVERY, RUST};
use crate::timeline::model::Model;

/// Settings, and a list of calls for them.
fn list(rng: &mut Rng) -> ((u64, u64), Vec<Call>) {
    let set = match rng.below(3) {
        0 | 1 => RUST,
        _ => settings(rng),
    };
    // Of the largest stores only the Rust's own.
    let set = if set.0 > 40 { RUST } else { set };
    let reach = if set == RUST { rng.pick(&[5000, 9000, 18_000]) } else { rng.pick(&[20, 100, 400]) };
    let count = rng.between(2, 6);
    (set, calls(rng, count, reach, set.1))
}

/// The Rust's answer to a call, unless the port lacks space, refuses, or it takes long.
fn made<K: Kind>(
    rust: &mut Timeline<K::Sim>,
    model: &mut Model<K>,
    room: K::Room,
    call: Call,
    far: bool,
) -> Option<Outcome> {
    let here = rust.current().steps();
    let target = u64::try_from(call.target(here)).ok().filter(|&t| t <= MAX_STEPS)?;
    if target.saturating_sub(here) > REACH && !(far && K::ends_soon(rust.current(), room, target - here)) {
        return None;
    }
    let result = model.go_to(target.max(model.first()), room);
    (result[0] != Some(4)).then(|| match call {
        Call::Seek(n) => rust.seek(n),
        Call::Forward(n) => rust.forward(n),
        Call::Back(n) => rust.back(n),
    })
}

/// Writes settings and calls, then the answer and the engine after each, then, where the settings are the Rust's, how
/// many checkpoints there are, how far apart, and the engine's steps or macro steps.
fn write<K: Kind>(
    rng: &mut Rng,
    mut line: Line,
    sim: K::Sim,
    room: K::Room,
    far: bool,
    engine: fn(&mut Line, &K::Sim),
) -> Option<Line> {
    let (set, calls) = list(rng);
    line.puts([set.0, set.1, calls.len() as u64]);
    calls.iter().for_each(|call| {
        let (which, number) = call.numbers();
        line.put(which);
        line.put(number);
    });
    let mut rust = Timeline::new(sim.clone());
    let mut model = Model::<K>::new(sim, set.0, set.1);
    for &call in &calls {
        line.answer(made(&mut rust, &mut model, room, call, far)?);
        engine(&mut line, rust.current());
    }
    if model.times[COUNT] == 1 && model.times[EVERY] == set.1 {
        return None; // nothing was recorded
    }
    if set == RUST {
        line.put(rust.checkpoints.len());
        line.put(rust.interval);
        line.put(K::work(rust.current()));
    }
    Some(line)
}

/// Over the plain engine.
pub fn cells(rng: &mut Rng) -> Option<Line> {
    let (line, _, sim) = plain::begin(rng, true)?;
    write::<OnCells>(rng, line, sim, plain::CELLS, false, plain::engine)
}

/// Over the run-length engine.
pub fn runs(rng: &mut Rng) -> Option<Line> {
    let (line, _, sim) = chain::begin(rng)?;
    write::<OnRuns>(rng, line, sim, chain::PLACES, true, chain::engine)
}
