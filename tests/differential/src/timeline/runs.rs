//! The kinds of runs of the timeline, over either engine.

use std::rc::Rc;

use super::case::{Act, Case};
use super::generate::{Source, any_settings, calls, odd_act, settings};
use super::law::{Call, RUST};
use crate::case::Subject;
use crate::generate::{self, Rng, one_tape, standard, three_tapes};
use crate::law::{MAX_STEPS, Sizes};
use crate::runner::Runner;
use crate::runs::{L, MOST_ENTRIES, N, R, SMALL_TABLES, alternating, listing, small_table};

/// A machine and a word.
pub type Ground = (Rc<Subject>, Vec<u8>);

/// A random machine, or one that sweeps over blanks.
fn ground<K: Source>(rng: &mut Rng, most: u64) -> Ground {
    if rng.once_in(3) {
        return generate::sweeper(rng);
    }
    let sizes = K::sizes(rng, most);
    let word = generate::word(rng, sizes.symbols);
    (Subject::new(sizes, generate::table(rng, &sizes)), word)
}

/// Busy beavers, which halt after so many steps, and walks.
pub fn machines() -> Vec<(Rc<Subject>, u64)> {
    let halting = [
        ("1RB1LB_1LA1RZ", 6),
        ("1RB1RZ_1LB0RC_1LC1LA", 21),
        ("1RB1LB_1LA0LC_1RZ1LD_1RD0RA", 107),
        ("1RB2LB1RZ_2LA2RB1LB", 38),
    ];
    let mut all: Vec<_> = halting.map(|(text, steps)| (standard(text), steps)).to_vec();
    all.push((listing(), 6));
    all.push((alternating(R), 60));
    all.push((alternating(L), 60));
    all.push((one_tape(2, 1, &[(0, 0, 1, R, 0)]), 60));
    all.push((one_tape(2, 1, &[(0, 0, 0, N, 0)]), 60));
    all
}

/// All tables of 2 states and 2 symbols, with small settings.
pub fn small<K: Source>(r: &mut Runner) {
    let words: [&[u8]; 2] = [&[], &[1, 1, 0, 1]];
    use Call::{Back, Forward, Seek};
    let plans: [&[Call]; 3] = [
        &[Seek(0), Seek(1), Forward(0), Seek(7), Back(3), Forward(40), Back(100), Seek(90), Seek(33), Back(0), Back(1)],
        &[Forward(5), Forward(5), Back(9), Forward(8), Back(2), Seek(64), Seek(63), Seek(65), Seek(0), Forward(130)],
        &[Seek(100), Back(50), Back(30), Back(19), Back(1), Back(1), Forward(12), Seek(100), Seek(150), Seek(16)],
    ];
    for number in 0..SMALL_TABLES {
        let subject = small_table(number);
        for i in 0..r.scale as usize {
            let mut rng = r.rng();
            let word = words[(number / 3 + i) % words.len()];
            let begin = if rng.once_in(4) { K::tight(&mut rng, word.to_vec()) } else { K::fresh(word, 140) };
            let set = settings(&mut rng);
            let case = Case::<K>::new(&subject, begin, set, plans[(number + i) % plans.len()]);
            r.case(&Case { probe: number % 8 == 0 && set.0 <= 16, dirt: rng.next(), ..case });
        }
    }
}

/// Random machines with other settings, also on engines set from outside.
pub fn random<K: Source>(r: &mut Runner) {
    for i in 0..20_000 * r.scale {
        let mut rng = r.rng();
        let (subject, word) = ground::<K>(&mut rng, if i % 50 == 49 { 20_000 } else { 300 });
        let begin = match rng.below(4) {
            0 => K::fitting(&mut rng, &subject.sizes),
            1 => K::fresh(&word, K::AMPLE / 4),
            _ => K::any(&mut rng, &subject.sizes, word),
        };
        let set = settings(&mut rng);
        let reach = rng.pick(&[20, 100, 100, 400, 2000]);
        let count = rng.between(2, 16);
        let list = calls(&mut rng, count, reach, set.1);
        let case = Case::<K>::new(&subject, begin, set, &list);
        let more = rng.pick(&[0, 0, 1, 500]);
        r.case(&Case { more, probe: i % 10 == 0 && set.0 <= 16, dirt: rng.next(), ..case });
    }
}

/// The Rust's settings, over some intervals.
pub fn rust<K: Source>(r: &mut Runner) {
    for i in 0..1000 * r.scale {
        let mut rng = r.rng();
        let (subject, word) = ground::<K>(&mut rng, 300);
        let begin = match rng.below(8) {
            0 => K::fitting(&mut rng, &subject.sizes),
            1 => K::any(&mut rng, &subject.sizes, word),
            _ => K::fresh(&word, K::AMPLE),
        };
        let reach = rng.pick(&[100, 5000, 10_000, 20_000]);
        let count = rng.between(4, 24);
        let list = calls(&mut rng, count, reach, RUST.1);
        r.case(&Case { dirt: rng.next(), anew: i % 4 == 0, ..Case::<K>::new(&subject, begin, RUST, &list) });
    }
    for (subject, steps) in machines() {
        for start in [0, 1, 3] {
            let mut rng = r.rng();
            let list = calls(&mut rng, 40, steps + start, 1);
            r.case(&Case { dirt: rng.next(), ..Case::<K>::new(&subject, K::fresh(&[], 400), RUST, &list) });
        }
    }
}

/// A list of calls to and fro over steps up to `reach`.
fn to_and_fro(rng: &mut Rng, reach: u64, count: u64) -> Vec<Call> {
    let mut list = vec![Call::Seek(reach / 3), Call::Seek(reach), Call::Forward(0), Call::Back(reach / 2)];
    let every = RUST.1 << rng.below(4);
    list.extend(calls(rng, count, reach, every));
    list.push(Call::Seek(reach));
    list
}

/// Lists that thin several times at the Rust's settings.
pub fn long<K: Source>(r: &mut Runner) {
    let bb5 = || standard("1RB1LC_1RC1RB_1RD0LE_1LA1LD_1RZ0LA");
    let sweep = [(0, 0, 0, R, 0), (0, 1, 1, L, 1), (0, 2, 2, R, 0), (1, 0, 0, L, 1), (1, 1, 1, L, 1), (1, 2, 2, R, 0)];
    let mut marks = vec![0; 900];
    (marks[0], marks[899]) = (2, 1);
    let grounds: [(Ground, u64); 4] = [
        ((bb5(), vec![]), 9_000_000),
        ((standard("1RB2LA1RA1RA_1LB1LA3RB1RZ"), vec![]), 4_000_000),
        ((one_tape(3, 2, &sweep), marks), 4_500_000),
        ((three_tapes(), vec![1; 60]), 2_300_000),
    ];
    for ((subject, word), reach) in grounds {
        if K::refusal_of_tapes(&subject.sizes) {
            continue;
        }
        for _ in 0..r.scale {
            let mut rng = r.rng();
            let list = to_and_fro(&mut rng, reach, 12);
            let begin = K::fresh(&word, 1 << 14);
            r.case(&Case { anew: false, dirt: rng.next(), ..Case::<K>::new(&subject, begin, RUST, &list) });
        }
    }
}

/// Seeks up to 2^62, where a proved loop, a halt or a full step makes them quick.
pub fn far<K: Source>(r: &mut Runner) {
    let back = one_tape(3, 2, &[(0, 1, 2, L, 0), (0, 0, 1, R, 1), (1, 2, 1, R, 1), (1, 0, 1, L, 0)]);
    let walk = one_tape(2, 1, &[(0, 0, 1, R, 0)]);
    let left = one_tape(2, 2, &[(0, 0, 1, R, 1), (1, 0, 0, L, 1), (1, 1, 0, L, 1)]);
    let stay = one_tape(2, 2, &[(0, 0, 1, R, 1), (1, 0, 0, N, 1)]);
    for subject in [&walk, &left, &stay, &back, &listing(), &alternating(R)] {
        for set in [RUST, (1, 1), (3, 2), (512, 1 << 32), (16, 64)] {
            for _ in 0..3 * r.scale {
                let mut rng = r.rng();
                let far = [MAX_STEPS, MAX_STEPS - 1, 1 << 61, 1 << 40, rng.below(MAX_STEPS), 1 << 33, MAX_STEPS + 1];
                let one = |rng: &mut Rng| match rng.below(4) {
                    0 => Call::Back(rng.pick(&far)),
                    1 => Call::Forward(rng.pick(&far)),
                    2 => Call::Seek(rng.below(50)),
                    _ => Call::Seek(rng.pick(&far)),
                };
                let list: Vec<Call> = (0..12).map(|_| one(&mut rng)).collect();
                let begin = K::fresh(&[], rng.pick(&[40, 200]));
                r.case(&Case { dirt: rng.next(), ..Case::<K>::new(subject, begin, set, &list) });
            }
        }
    }
}

/// Calls with one or several things wrong.
pub fn refuse<K: Source>(r: &mut Runner) {
    for i in 0..15_000 * r.scale {
        let mut rng = r.rng();
        let (subject, word) = ground::<K>(&mut rng, 300);
        let subject = if rng.once_in(30) { spoilt(&mut rng, &subject) } else { subject };
        let begin = match rng.below(3) {
            0 => K::any(&mut rng, &subject.sizes, word),
            _ => K::fresh(&word, K::SOME),
        };
        let set = match rng.below(12) {
            0 => (rng.pick(&[0, 513, 1 << 32, u64::MAX]), rng.between(1, 20)),
            1 => (rng.between(1, 16), rng.pick(&[0, (1 << 32) + 1, 1 << 33, u64::MAX])),
            2 => (rng.pick(&[512, 1]), 1 << 32),
            _ => (rng.between(1, 8), rng.between(1, 20)),
        };
        let times = match rng.below(3) {
            0 => [rng.between(1, 8), 0, 1, rng.between(1, 20)],
            1 => [set.0, 0, rng.between(0, 3), set.1],
            _ => [0; 4].map(|_| rng.next()),
        };
        let count = rng.between(2, 12);
        let list = calls(&mut rng, count, 120, set.1.min(1000));
        let acts: Vec<Act> = list.iter().map(|&call| odd_act::<K>(&mut rng, &subject, call)).collect();
        let more = rng.pick(&[0, 0, 0, 1, 999, -1, -1, -200]);
        let case = Case::<K>::new(&subject, begin, set, &[]);
        r.case(&Case { more, times, acts, probe: i % 20 == 0, dirt: rng.next(), ..case });
    }
}

/// A table that its check refuses.
fn spoilt(rng: &mut Rng, subject: &Rc<Subject>) -> Rc<Subject> {
    let (mut sizes, mut table) = (subject.sizes, subject.table.clone());
    match rng.below(4) {
        0 => sizes.tapes = rng.pick(&[0, 4]),
        1 => sizes = Sizes { start: sizes.states, ..sizes },
        2 => table.push(0),
        _ => table[0] = 2,
    }
    Subject::new(sizes, table)
}

/// Machines with loops that a run-length engine covers at once, or that end at once for lack of cells.
fn loops() -> Vec<Rc<Subject>> {
    let back = one_tape(3, 2, &[(0, 1, 2, L, 0), (0, 0, 1, R, 1), (1, 2, 1, R, 1), (1, 0, 1, L, 0)]);
    let left = one_tape(2, 2, &[(0, 0, 1, R, 1), (1, 0, 0, L, 1), (1, 1, 0, L, 1)]);
    let stay = one_tape(2, 2, &[(0, 0, 1, R, 1), (1, 0, 0, N, 1)]);
    vec![one_tape(2, 1, &[(0, 0, 1, R, 0)]), left, stay, back, alternating(R)]
}

/// Every m from 1 to 512 in turn, first intervals of any size; every second list long enough to fill the slots.
pub fn any<K: Source>(r: &mut Runner) {
    let loops = loops();
    for i in 0..2048 * r.scale {
        let mut rng = r.rng();
        let looping = rng.once_in(3);
        let (subject, word) = match looping {
            true => (Rc::clone(&loops[rng.below(loops.len() as u64) as usize]), vec![]),
            false => ground::<K>(&mut rng, 300),
        };
        let most = 1 + i % 512;
        let every = if rng.once_in(2) { rng.log(1, 16) } else { any_settings(&mut rng).1 };
        let begin = match rng.below(8) {
            0 => K::fitting(&mut rng, &subject.sizes),
            1 | 2 => K::long(&mut rng, &subject.sizes),
            3 => K::any(&mut rng, &subject.sizes, word),
            _ => K::fresh(&word, K::SOME),
        };
        let filled = 3 * most * every;
        let reach = match rng.below(4) {
            0 | 1 => filled.min(20_000),
            2 if looping => filled.max(1 << rng.below(62)).min(MAX_STEPS),
            2 => filled.min(100_000),
            _ => rng.log(16, 4000),
        };
        let count = rng.between(3, 10);
        let list = calls(&mut rng, count, reach, every);
        let probe = most <= 16 && i % 4 == 0;
        r.case(&Case { probe, dirt: rng.next(), ..Case::<K>::new(&subject, begin, (most, every), &list) });
    }
}

/// Tables of any shape, of up to 2 MB.
pub fn wide<K: Source>(r: &mut Runner) {
    for _ in 0..300 * r.scale {
        wide_list::<K>(r, MOST_ENTRIES);
    }
}

/// A list on a table with at most so many entries.
pub fn wide_list<K: Source>(r: &mut Runner, most: u64) {
    let mut rng = r.rng();
    let sizes = K::wide(&mut rng, most);
    let word = generate::word(&mut rng, sizes.symbols);
    let subject = Subject::new(sizes, generate::table(&mut rng, &sizes));
    let begin = match rng.below(4) {
        0 => K::fitting(&mut rng, &sizes),
        1 => K::any(&mut rng, &sizes, word),
        _ => K::fresh(&word, K::SOME),
    };
    let set = match rng.below(3) {
        0 => RUST,
        1 => any_settings(&mut rng),
        _ => (rng.between(1, 512), rng.between(1, 20)),
    };
    let (count, reach) = (rng.between(3, 8), if set == RUST { 9000 } else { 1000 });
    let list = calls(&mut rng, count, reach, set.1);
    r.case(&Case { dirt: rng.next(), ..Case::<K>::new(&subject, begin, set, &list) });
}

/// Few cells, few run places.
pub fn space<K: Source>(r: &mut Runner) {
    for (subject, steps) in machines() {
        for i in 0..60 * r.scale {
            let mut rng = r.rng();
            let begin = K::tight(&mut rng, if i % 2 == 0 { vec![] } else { vec![1, 1, 0, 1] });
            let set = settings(&mut rng);
            let reach = rng.pick(&[steps + 2, 40, 300]);
            let list = calls(&mut rng, 12, reach, set.1);
            let case = Case::<K>::new(&subject, begin, set, &list);
            r.case(&Case { probe: set.0 <= 16, dirt: rng.next(), ..case });
        }
    }
    for _ in 0..6000 * r.scale {
        let mut rng = r.rng();
        let (subject, mut word) = ground::<K>(&mut rng, 300);
        word.truncate(12);
        let begin = K::tight(&mut rng, word);
        let set = settings(&mut rng);
        let reach = rng.pick(&[30, 200, 3000]);
        let list = calls(&mut rng, 10, reach, set.1);
        r.case(&Case { dirt: rng.next(), ..Case::<K>::new(&subject, begin, set, &list) });
    }
}
