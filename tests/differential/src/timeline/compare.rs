//! One list of calls on a timeline on both sides, and every comparison.

use super::case::{Act, Case};
use super::held::{Port, slot_of};
use super::kind::{Kind, Told};
use super::law::{self, COUNT, Call, EVERY, FIRST, MOST, RUST};
use super::model::Model;
use super::odd::{Odd, Ready};
use crate::case::Subject;
use crate::checkpoint::{Engine as _, Timeline};
use crate::generate::Rng;
use crate::law::{Refusal, when};
use crate::lent::{GUARD, Held};
use crate::oracle;
use crate::port::Out;
use crate::tally::{ANEW, Difference, FULL, OUT, THINNED, Tally, VISITED, WITH_RUST, same};

/// A list of calls under way.
struct Pairing<'a, K: Kind> {
    case: &'a Case<K>,
    port: Port<K>,
    model: Option<Model<K>>,
    /// The Rust's timeline, where its settings are used and nothing was spoilt.
    rust: Option<Timeline<K::Sim>>,
    /// The engine on which the timeline was made, where it was.
    origin: Option<K::Sim>,
    rng: Rng,
}

/// What a call is made with: the table, how much of the store, and whether its slot may be an engine or not.
struct Spoilt<'s> {
    on: &'s Subject,
    lent: usize,
    uncertain: bool,
}

/// Runs a case on both sides.
pub fn run<K: Kind>(case: &Case<K>, tally: &mut Tally) -> Result<(), Difference> {
    tally.cases += 1;
    let mut rng = Rng::new(case.dirt);
    let Some(held) = K::begin(&case.subject, &case.begin, &mut rng) else {
        return Ok(()); // a fresh engine that is refused: the engines' own runs look at those
    };
    let mut pairing = Pairing::begin(case, held, rng, tally).map_err(|e| format!("new timeline: {e}"))?;
    for (i, act) in case.acts.iter().enumerate() {
        if !pairing.act(act, tally).map_err(|e| format!("call {i}, {act:?}: {e}"))? {
            break;
        }
    }
    Ok(())
}

impl<'a, K: Kind> Pairing<'a, K> {
    /// Makes the store and the timeline.
    fn begin(case: &'a Case<K>, held: K::Held, mut rng: Rng, tally: &mut Tally) -> Result<Self, Difference> {
        let subject = &*case.subject;
        let (most, every) = case.set;
        let slots = most.clamp(1, 512) as usize + 1;
        let slot = slot_of::<K>(subject, &held);
        // A store beyond the limits of memory is never needed: its engine is refused before.
        let bytes = (slots * slot).min(1 << 28).saturating_add_signed(case.more);
        let mut store = vec![0; bytes + 2 * GUARD];
        let dirty = if bytes > 1 << 18 { &mut store[..GUARD] } else { &mut store[..] };
        dirty.chunks_mut(8).for_each(|part| part.copy_from_slice(&rng.next().to_le_bytes()[..part.len()]));
        let mut port = Port::<K> { held, times: case.times, store, before: Default::default() };
        let expected = subject
            .refusal
            .or_else(|| K::refusal(&subject.sizes, &port.held))
            .or_else(|| law::settings(most, every))
            .or_else(|| law::store(bytes, slot, most));
        port.look(if expected.is_some() { 0 } else { slot });
        let mut out = OUT;
        let store = &mut port.store[GUARD..GUARD + bytes];
        let result = K::make(subject, &port.held, store, &mut port.times, case.set, &mut out);
        tally.calls += 1;
        let mut pairing = Pairing { case, port, model: None, rust: None, origin: None, rng };
        let made = pairing.port.settle((result, &out), expected, 0, tally)?;
        if let (Some(machine), None) = (&subject.machine, K::refusal(&subject.sizes, &pairing.port.held)) {
            let sim = K::set(machine, &pairing.port.held);
            let mut model = Model::new(sim.clone(), most.clamp(1, 512), every);
            if made {
                pairing.port.held.unchanged()?;
                same!(pairing.port.times, model.times, "the timeline's value [most, first, count, every]");
                same!(pairing.port.store_kept(), true, "the store past slot 0 is as it was");
                pairing.rust = (case.set == RUST).then(|| Timeline::new(sim.clone()));
                pairing.origin = Some(sim);
            } else {
                (model.times, model.slots[0]) = (case.times, None);
            }
            pairing.model = Some(model);
        }
        Ok(pairing)
    }

    /// One call; says whether the list goes on.
    fn act(&mut self, act: &Act, tally: &mut Tally) -> Result<bool, Difference> {
        let good = (!act.odds.is_empty()).then(|| (self.port.clone(), self.model.clone()));
        let Spoilt { on, lent, uncertain } = self.spoil(act);
        let (expected, target) = self.expect(on, act, lent);
        // Another good table, of which this list has nothing to say, or a very long way.
        if expected.is_none() && (!std::ptr::eq(on, &*self.case.subject) || !self.is_short(target)) {
            self.undo(good);
            tally.skipped += 1;
            return Ok(true);
        }
        let slots = self.port.times[MOST].min(512) as usize + 1;
        self.port.look(if expected.is_some() || uncertain { 0 } else { slots * self.slot() });
        tally.calls += 1;
        let mut out = OUT;
        let result = self.port.call(on, lent, act.call, &mut out);
        if uncertain && matches!(result, 0 | 16) && expected.is_none_or(|r| r.number == 16) {
            return self.perhaps(result, &out, tally).map(|()| false);
        }
        if !self.port.settle((result, &out), expected, 5, tally)? {
            self.undo(good);
            return Ok(true);
        }
        if act.odds.iter().any(|odd| !matches!(odd, Odd::Short(_))) {
            (self.rust, self.origin) = (None, None); // what was wrong is so from now on
        }
        self.accepted(act.call, target, &out, tally)?;
        self.visit(tally)?;
        Ok(true)
    }

    /// A slot's size; any, where the table is refused.
    fn slot(&self) -> usize {
        slot_of::<K>(&self.case.subject, &self.port.held)
    }

    /// Makes everything wrong that a call has wrong with it.
    fn spoil<'s>(&mut self, act: &'s Act) -> Spoilt<'s>
    where
        'a: 's,
    {
        let (steps, slot) = (K::steps(&self.port.held), self.slot());
        let restores = self.model.as_ref().filter(|m| law::value(&m.times, steps).is_none()).and_then(|m| {
            let target = act.call.target(steps).max(u128::from(m.times[FIRST])).min(1 << 62);
            m.restores(target as u64)
        });
        let (mut lent, mut uncertain) = (self.port.store.len() - 2 * GUARD, false);
        let end = GUARD + lent;
        let mut ready = Ready::<'s, '_, K> {
            subject: &self.case.subject,
            held: &mut self.port.held,
            times: &mut self.port.times,
            store: &mut self.port.store[GUARD..end],
            lent: &mut lent,
            model: self.model.as_mut(),
            slot,
            restores: restores.map(|r| r.0),
            uncertain: &mut uncertain,
        };
        act.odds.iter().for_each(|odd| ready.spoil(odd, &mut self.rng));
        Spoilt { on: ready.subject, lent, uncertain }
    }

    /// Puts right what was wrong with a refused call.
    fn undo(&mut self, good: Option<(Port<K>, Option<Model<K>>)>) {
        if let Some(good) = good {
            (self.port, self.model) = good;
        }
    }

    /// The refusal that a call is to get, and the step that it goes to.
    fn expect(&mut self, on: &Subject, act: &Act, lent: usize) -> (Option<Refusal>, u64) {
        let (held, times) = (&self.port.held, self.port.times);
        let steps = K::steps(held);
        let refusal = on.refusal.or_else(|| K::refusal(&on.sizes, held)).or_else(|| law::value(&times, steps));
        if refusal.is_some() {
            return (refusal, 0);
        }
        let target = act.call.target(steps);
        let refusal = law::store(lent, K::slot(&on.sizes, held), times[MOST]).or_else(|| law::target(target));
        if refusal.is_some() {
            return (refusal, 0);
        }
        let target = (target as u64).max(times[FIRST]);
        let Some(model) = self.model.as_mut() else {
            return (None, target); // an engine spoilt so that it fits: by another table only
        };
        model.times = times;
        let slots = model.slots.len().max(times[MOST] as usize + 1);
        model.slots.resize(slots, None);
        if act.odds.iter().any(|odd| matches!(odd, Odd::Value(..))) {
            let machine = on.machine.as_ref().expect("an accepted table has its machine");
            model.here = K::set(machine, held);
        }
        (when(model.is_refused(target), 16), target)
    }

    /// Whether the call to `target` takes no great time.
    fn is_short(&self, target: u64) -> bool {
        let model = self.model.as_ref().expect("an engine that fits has its model");
        let from = model.restores(target).map_or(&model.here, |(i, _)| model.slots[i].as_ref().expect("not refused"));
        K::ends_soon(from, K::room(&self.port.held), target - from.steps())
    }

    /// A call whose slot may hold an engine or not: refused, or an engine that fits.
    fn perhaps(&mut self, result: u8, out: &Out, tally: &mut Tally) -> Result<(), Difference> {
        if result == 16 {
            self.port.settle((result, out), when(true, 16), 5, tally)?;
            return Ok(());
        }
        tally.outcomes[out[0].min(4) as usize] += 1;
        same!(out[1], K::steps(&self.port.held), "steps in the answer");
        same!(K::refusal(&self.case.subject.sizes, &self.port.held), None, "what the value handed back is refused for");
        same!(law::value(&self.port.times, out[1]), None, "what the timeline's value handed back is refused for");
        Ok(())
    }

    /// An accepted call: the answer, the engine and the timeline's value are as they must be.
    fn accepted(&mut self, call: Call, target: u64, out: &Out, tally: &mut Tally) -> Result<(), Difference> {
        let room = K::room(&self.port.held);
        let model = self.model.as_mut().expect("an engine that fits has its model");
        let (from, interval) = (K::work(&model.here), model.times[EVERY]);
        let expected = model.go_to(target, room);
        same_answer(out, expected, "the model's")?;
        K::compare(&self.port.held, &model.here, true)?;
        same!(self.port.times, model.times, "the timeline's value [most, first, count, every]");
        same!(self.port.store_kept(), true, "the store past m + 1 slots is as it was");
        let (end, full) = (model.here.steps(), expected[0] == Some(4));
        tally.timeline[THINNED] += u64::from(model.times[EVERY].ilog2() - interval.ilog2());
        tally.outcomes[out[0] as usize] += 1;
        tally.departures[FULL] += u64::from(full);
        tally.steps += K::work(&model.here).saturating_sub(from);
        if full {
            self.rust = None;
        }
        if let Some(rust) = &mut self.rust {
            let answer = match call {
                Call::Seek(n) => rust.seek(n),
                Call::Forward(n) => rust.forward(n),
                Call::Back(n) => rust.back(n),
            };
            same_answer(out, oracle::answer(answer), "the Rust's")?;
            K::compare(&self.port.held, rust.current(), true).map_err(|e| format!("the Rust's timeline: {e}"))?;
            let (count, every) = (rust.checkpoints.len() as u64, rust.interval);
            same!(self.port.times[COUNT..=EVERY], [count, every], "count and interval (the Rust's)");
            tally.timeline[WITH_RUST + usize::from(call.numbers().0.min(2))] += 1;
        }
        if let (true, Some(origin)) = (self.case.anew, &self.origin) {
            let (mut fresh, start) = (origin.clone(), origin.steps());
            if full {
                K::advance(&mut fresh, room, end - start);
                same!(K::is_full(&fresh, room) && end < target, true, "full at {end}, on the way to {target}");
            } else {
                same_answer(out, K::advance(&mut fresh, room, target - start), "of a run from the start")?;
            }
            K::compare(&self.port.held, &fresh, false).map_err(|e| format!("a run from the start: {e}"))?;
            tally.timeline[ANEW] += 1;
        }
        let refusal = K::refusal(&self.case.subject.sizes, &self.port.held);
        same!(refusal, None, "what the value handed back is refused for");
        same!(law::value(&self.port.times, end), None, "what the timeline's value handed back is refused for");
        Ok(())
    }

    /// Seeks every recorded slot that lies behind, on a copy.
    fn visit(&mut self, tally: &mut Tally) -> Result<(), Difference> {
        let Some(model) = self.model.as_ref().filter(|_| self.case.probe) else {
            return Ok(());
        };
        let room = K::room(&self.port.held);
        for (i, step) in model.recorded().enumerate() {
            let Some(saved) = model.slots[i].as_ref().filter(|s| step < model.here.steps() && s.steps() == step) else {
                continue;
            };
            let (mut copy, mut out) = (self.port.clone(), OUT);
            copy.look(0);
            let lent = copy.store.len() - 2 * GUARD;
            same!(copy.call(&self.case.subject, lent, Call::Seek(step), &mut out), 0, "visit to slot {i}");
            let mut saved = saved.clone();
            same_answer(&out, K::advance(&mut saved, room, 0), &format!("of slot {i}"))?;
            K::compare(&copy.held, &saved, true).map_err(|e| format!("slot {i}, step {step}: {e}"))?;
            same!(copy.times, self.port.times, "the timeline's value after a visit to slot {i}");
            tally.timeline[VISITED] += 1;
        }
        Ok(())
    }
}

fn same_answer(out: &Out, want: Told, whose: &str) -> Result<(), Difference> {
    if (0..5).all(|i| want[i].is_none_or(|w| w == out[i])) {
        return Ok(());
    }
    let port = &out[..5];
    Err(format!("answer [outcome, steps, state, pattern, move]: the port has {port:?}, expected {want:?} ({whose})"))
}
