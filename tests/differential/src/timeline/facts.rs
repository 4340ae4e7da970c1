//! Facts of document 01 about the timeline, with the answers written here; they need no oracle.

use super::kind::{Kind, OnCells, OnRuns};
use super::law::{Call, FIRST, Times};
use crate::case::Subject;
use crate::chain::law::{HEAD, Side, ZERO};
use crate::generate::{Rng, one_tape};
use crate::held::Plain;
use crate::law::{MAX_CELLS, tape_fields};
use crate::lent::Held as _;
use crate::port::{ChainView, Out, View};
use crate::runner::Runner;
use crate::runs::{N, R, alternating, listing};
use crate::tally::OUT;
use Call::{Back, Forward, Seek};

/// What a row of the listing shows after the answer: head, lowest, highest and score.
pub trait Shown: Kind {
    fn shown(subject: &Subject, held: &Self::Held) -> [i64; 4];
}

impl Shown for OnCells {
    fn shown(s: &Subject, held: &Plain) -> [i64; 4] {
        let [_, origin, head, low, high] = tape_fields(&held.engine, 0).map(|n| n as i64);
        let mut out = OUT;
        let view =
            View { sizes: s.sizes, table: &s.table, cells: held.cells(), state: held.state, engine: &held.engine };
        view.count(0, &mut out);
        [head - origin, low - origin, high - origin, out[0] as i64]
    }
}

impl Shown for OnRuns {
    fn shown(s: &Subject, held: &Self::Held) -> [i64; 4] {
        let v = &held.value;
        let at = |i: usize| v.engine[i].wrapping_sub(ZERO) as i64;
        let (Side(ls, ll), Side(rs, rl)) = (held.left.side(), held.right.side());
        let mut out = OUT;
        let places = (ls, ll, rs, rl);
        ChainView { sizes: s.sizes, table: &s.table, places, state: v.state, cur: v.cur, engine: &v.engine }
            .count(&mut out);
        [at(HEAD), at(HEAD + 1), at(HEAD + 2), out[0] as i64]
    }
}

/// A timeline of the port, with the result of its last call.
struct Lone<'a, K: Kind> {
    subject: &'a Subject,
    held: K::Held,
    store: Vec<u8>,
    times: Times,
    result: u8,
    out: Out,
}

impl<'a, K: Kind> Lone<'a, K> {
    fn new(subject: &'a Subject, begin: K::Begin, set: (u64, u64)) -> Self {
        let held = K::begin(subject, &begin, &mut Rng::new(1)).expect("a fresh engine");
        let store = vec![7; (set.0 as usize + 1) * K::slot(&subject.sizes, &held)];
        let mut lone = Self { subject, held, store, times: [0; 4], result: 0, out: OUT };
        lone.make(set);
        lone
    }

    fn make(&mut self, set: (u64, u64)) {
        self.result = K::make(self.subject, &self.held, &mut self.store, &mut self.times, set, &mut self.out);
    }

    /// The answer's first numbers; none where it is refused.
    fn call(&mut self, call: Call) -> Option<[u64; 2]> {
        let (held, store) = (&mut self.held, &mut self.store);
        self.result = K::call(self.subject, held, store, &mut self.times, call.numbers(), &mut self.out);
        (self.result == 0).then_some([self.out[0], self.out[1]])
    }
}

/// All facts that both engines share.
pub fn shared<K: Shown>(r: &mut Runner) {
    listed::<K>(r);
    boundaries::<K>(r);
    other_table::<K>(r);
    let walk = one_tape(2, 1, &[(0, 0, 1, R, 0)]);
    let mut lone = Lone::<K>::new(&walk, K::fresh(&[], 64), (8, 4));
    let holds = lone.call(Seek(10)) == Some([2, 10]) && lone.call(Back(3)) == Some([2, 7]);
    r.fact(holds, &format!("a proved loop is walked on: never at 10, then at 7: {:?}", lone.out));
    let first = lone.times;
    // A timeline made at step 7 starts there.
    lone.make((8, 4));
    r.fact(lone.result == 0 && lone.times == [8, 7, 1, 4], &format!("made at 7, after {first:?}: {:?}", lone.times));
    let holds = lone.call(Forward(3)) == Some([2, 10]) && lone.call(Back(9)) == Some([2, 7]);
    r.fact(holds && lone.times[FIRST] == 7, "a target below the start counts as the start");
    let refused = [Forward((1 << 62) - 6), Forward(u64::MAX), Seek((1 << 62) + 1), Seek(u64::MAX)];
    for call in refused {
        lone.call(call);
        r.fact(lone.result == 13, &format!("{call:?} from 7: refused 13, not {}", lone.result));
    }
    r.fact(lone.call(Back(u64::MAX)) == Some([2, 7]), "back is never refused for its number");
}

/// The listing's calls and rows.
fn listed<K: Shown>(r: &mut Runner) {
    let subject = listing();
    let rows: [(Call, [u64; 2], u64, [i64; 4]); 4] = [
        (Seek(3), [1, 3], 1, [-1, -1, 1, 2]),
        (Forward(100), [0, 6], 2, [0, -2, 1, 4]),
        (Back(2), [1, 4], 0, [-2, -2, 1, 3]),
        (Seek(0), [1, 0], 0, [0, 0, 0, 0]),
    ];
    for set in [(8, 16), (1, 1), (2, 1), (512, 4096), (3, 2)] {
        let mut lone = Lone::<K>::new(&subject, K::fresh(&[], 64), set);
        for (call, answer, state, shown) in rows {
            let got = lone.call(call);
            let at = K::shown(&subject, &lone.held);
            let holds = got == Some(answer) && (answer[0] != 0 || lone.out[2] == state) && at == shown;
            r.fact(holds, &format!("the listing, m and interval {set:?}, {call:?}: {got:?}, {at:?}"));
        }
    }
}

/// What is recorded at a boundary: after the target nothing, before it and at a halt there.
fn boundaries<K: Kind>(r: &mut Runner) {
    let subject = listing();
    let count = |lone: &Lone<K>| lone.times[2];
    let mut lone = Lone::<K>::new(&subject, K::fresh(&[], 64), (8, 3));
    let holds = lone.call(Seek(100)) == Some([0, 6]) && count(&lone) == 3;
    r.fact(holds, &format!("halted at 6, a boundary on the way: recorded ({:?})", lone.times));
    let mut lone = Lone::<K>::new(&subject, K::fresh(&[], 64), (8, 3));
    let holds = lone.call(Seek(6)) == Some([0, 6]) && count(&lone) == 2;
    r.fact(holds, &format!("a boundary that is the target is not recorded ({:?})", lone.times));
    let holds = lone.call(Forward(0)) == Some([0, 6]) && count(&lone) == 2;
    r.fact(holds, &format!("nor at a target equal to the present step ({:?})", lone.times));
    let holds = lone.call(Forward(1)) == Some([0, 6]) && count(&lone) == 3;
    r.fact(holds, &format!("but when a later call goes on ({:?})", lone.times));
    let subject = alternating(R);
    let mut lone = Lone::<K>::new(&subject, K::fresh(&[], 5000), (4, 10));
    lone.call(Seek(39));
    r.fact(lone.times == [4, 0, 4, 10], &format!("four recorded: {:?}", lone.times));
    lone.call(Seek(41));
    r.fact(lone.times == [4, 0, 3, 20], &format!("the fifth thins: 0, 20, 40 are left: {:?}", lone.times));
}

/// A slot with a symbol that is not below the k of the table that the call is made with.
fn other_table<K: Kind>(r: &mut Runner) {
    let three = one_tape(3, 2, &[(0, 2, 1, R, 1), (1, 0, 1, R, 1)]);
    let two = one_tape(2, 2, &[(0, 0, 1, R, 1), (1, 0, 1, R, 1)]);
    let mut lone = Lone::<K>::new(&three, K::fresh(&[2], 64), (8, 100));
    r.fact(lone.call(Seek(5)) == Some([2, 5]), "five steps");
    lone.subject = &two;
    K::look(&mut lone.held);
    let (store, times) = (lone.store.clone(), lone.times);
    lone.call(Back(5));
    let kept = lone.held.unchanged().is_ok() && lone.store == store && lone.times == times;
    r.fact(lone.result == 16 && kept, &format!("symbol 2 in a slot, k 2: refused 16, not {}", lone.result));
    lone.subject = &three;
    r.fact(lone.call(Back(5)) == Some([1, 0]), "with its own table the slot is taken");
}

/// Facts about cells: lack of space, buffers at their limits.
pub fn cells(r: &mut Runner) {
    shared::<OnCells>(r);
    for room in 32..64 {
        let walk = alternating(R);
        let mut lone = Lone::<OnCells>::new(&walk, OnCells::fresh(&[], room), (8, 5));
        let holds = lone.call(Seek(15)) == Some([1, 15]) && lone.times[2] == 3;
        r.fact(holds, &format!("15 steps in {room} cells: {:?}", lone.out));
        let holds = lone.call(Seek(16)) == Some([4, 15]) && lone.times[2] == 4;
        r.fact(holds, &format!("full at 15 with {room} cells, which is recorded: {:?}", lone.out));
        let holds = lone.call(Forward(0)) == Some([1, 15]) && lone.call(Seek(1 << 62)) == Some([4, 15]);
        r.fact(holds, "the present step is not full; any further is");
    }
    let layout = std::alloc::Layout::array::<u8>(MAX_CELLS + 1).expect("fits");
    // SAFETY: the layout is not empty; the memory is zeroed and freed below.
    let memory = unsafe { std::alloc::alloc_zeroed(layout) };
    if memory.is_null() {
        println!("no memory for a buffer over 2^30: left out");
        return;
    }
    let s = listing();
    for (len, refused) in [(MAX_CELLS, 15), (MAX_CELLS + 1, 11)] {
        // SAFETY: the memory has that many bytes, and no other slice of it is alive.
        let cells = || unsafe { std::slice::from_raw_parts_mut(memory, len) };
        let (mut state, mut engine, mut times, mut out) = (0, [0; 16], [1, 0, 1, 1], OUT);
        engine[1..6].copy_from_slice(&[32, 16, 16, 16, 16]);
        let lent = [&*cells(), &[], &[]];
        let made =
            super::ffi::sim_new(s.sizes, &s.table, lent, &mut [], (state, &engine), &mut times, (0, 0), &mut out);
        r.fact(made == refused.min(14), &format!("a timeline in {len} cells, m 0: {made}"));
        let lent = [cells(), &mut [], &mut []];
        let value = (&mut state, &mut engine);
        let result = super::ffi::sim_call(s.sizes, &s.table, lent, &mut [], value, &mut times, (0, 1 << 63), &mut out);
        r.fact(result == refused, &format!("a call in {len} cells and an empty store: {result}"));
    }
    // SAFETY: made above with this layout.
    unsafe { std::alloc::dealloc(memory, layout) };
}

/// Facts about runs: lack of space, places at their limits, several tapes.
pub fn runs(r: &mut Runner) {
    shared::<OnRuns>(r);
    let walk = one_tape(2, 1, &[(0, 0, 1, R, 0)]);
    let mut lone = Lone::<OnRuns>::new(&walk, OnRuns::fresh(&[], 0), (8, 5));
    let holds = lone.call(Seek(0)) == Some([2, 0]) && lone.call(Seek(1)) == Some([4, 0]);
    r.fact(holds && lone.call(Forward(0)) == Some([2, 0]), "no left places: never at 0, full on the way to 1");
    let stay = one_tape(2, 1, &[(0, 0, 0, N, 0)]);
    let mut lone = Lone::<OnRuns>::new(&stay, OnRuns::fresh(&[], 0), (512, 4096));
    r.fact(lone.call(Seek(1 << 62)) == Some([2, 1 << 62]), "a stay loop to 2^62");
    r.fact(lone.call(Back(1 << 61)) == Some([2, 1 << 61]), "and back to 2^61");
    let s = listing();
    let most = 1 << 20;
    for (places, refused) in [(most, 15), (most + 1, 11)] {
        let (mut symbols, mut lengths) = (vec![1; places], vec![1; places]);
        let value = crate::chain::law::Value { state: 0, cur: 0, engine: [5, 2, 0, 1, ZERO, ZERO, ZERO] };
        for (tapes, refused) in [(1, refused), (2, 8)] {
            let two = crate::runs::walkers(&[R, R], 2);
            let on = if tapes == 1 { &s } else { &two };
            let (mut times, mut value, mut out) = ([1, 5, 1, 1], value, OUT);
            let lent = (&mut symbols[..], &mut lengths[..], &mut [1][..], &mut [1][..]);
            let call = (0, 1 << 63);
            let result =
                super::ffi::chain_call(on.sizes, &on.table, lent, &mut [], &mut value, &mut times, call, &mut out);
            r.fact(result == refused, &format!("a call with {places} places, {tapes} tapes, an empty store: {result}"));
        }
    }
}
