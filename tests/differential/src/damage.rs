//! Tables with changed bytes and wrong sizes, changed packed words.

use crate::case::{Act, Asking, Begin, NO_RULE, Question, Subject, Words};
use crate::generate::{self, Rng};
use crate::law::Sizes;
use crate::runner::Runner;
use crate::runs::{R, case_of, entries, fast, run};

/// One of each operation.
pub fn every_operation(rng: &mut Rng) -> Vec<Act> {
    vec![
        Act::Check,
        Act::Pack { more: rng.pick(&[-1, 0, 0, 1]) },
        Act::Lookup { state: rng.below(4) as u16, read: [rng.below(3) as u8, 0, 0] },
        Act::Step,
        run(rng.below(30)),
        fast(rng.below(30)),
        Act::Ask(Question::Get { tape: 0, at: 0 }),
        Act::Ask(Question::NonBlank { tape: 0 }),
        Act::Ask(Question::Count { tape: 0 }),
        Act::Ask(Question::Window { tape: 0, from: -1, len: 4 }),
        Act::Ask(Question::Find { tape: 0, from: 0, dir: R }),
    ]
}

pub fn damage(r: &mut Runner) {
    // Every byte of every entry of small tables, in turn, to every other value.
    for (tapes, symbols, states) in [(1, 2, 2), (1, 3, 1), (2, 2, 2), (3, 2, 1), (1, 256, 1), (1, 1, 300)] {
        let sizes = Sizes { tapes, symbols, states, start: 0 };
        let mut rng = r.rng();
        let table = generate::table(&mut rng, &sizes);
        for at in 0..table.len().min(128) {
            for value in (0..=255).filter(|&v| v != table[at]) {
                let mut rng = r.rng();
                let mut table = table.clone();
                table[at] = value;
                let subject = Subject::new(sizes, table);
                let begin = Begin::Fresh { word: vec![], room: [40, 32, 32] };
                let acts = if value % 16 == 0 { every_operation(&mut rng) } else { vec![Act::Check] };
                r.case(&case_of(&subject, begin, acts, Asking::None, rng.next()));
            }
        }
    }
    // One to three bytes of larger tables.
    for i in 0..2000 * r.scale {
        let mut rng = r.rng();
        let sizes = generate::sizes(&mut rng, entries(i).min(20_000));
        let mut table = generate::table(&mut rng, &sizes);
        for _ in 0..rng.between(1, 3) {
            let at = match rng.below(4) {
                0 => table.len() as u64 - 1 - rng.below(8),
                1 => rng.below(8),
                _ => rng.below(table.len() as u64),
            } as usize;
            table[at] = match rng.below(3) {
                0 => rng.next() as u8,
                1 => table[at].wrapping_add(1),
                _ => table[at] ^ 1 << rng.below(8),
            };
        }
        let subject = Subject::new(sizes, table);
        let begin = match rng.below(2) {
            0 => generate::fitting(&mut rng, &sizes),
            _ => Begin::Fresh { word: vec![], room: [64, 64, 64] },
        };
        let acts = every_operation(&mut rng);
        r.case(&case_of(&subject, begin, acts, Asking::None, rng.next()));
    }
    // Wrong sizes, one or several at a time, with all the faults that come later.
    for _ in 0..6000 * r.scale {
        let mut rng = r.rng();
        let good = generate::sizes(&mut rng, 600);
        let mut table = generate::table(&mut rng, &good);
        let mut sizes = good;
        for _ in 0..rng.between(1, 2) {
            let high = rng.pick(&[1 << 8, 1 << 16, 1 << 32, 1 << 63, 3 << 61]);
            match rng.below(5) {
                0 => sizes.tapes = rng.pick(&[0, 1, 2, 3, 4, 5, 255, u64::MAX, high, high + good.tapes]),
                1 => sizes.symbols = rng.pick(&[0, 1, 257, 512, u64::MAX, high, high + good.symbols, good.symbols + 1]),
                2 => {
                    sizes.states =
                        rng.pick(&[0, 1, 65_537, u64::MAX, high, high + good.states, good.states + 1, good.states - 1])
                }
                3 => sizes.start = rng.pick(&[good.states, good.states + 1, 65_536, u64::MAX, high, high + good.start]),
                _ => {
                    let len = table.len();
                    let other =
                        rng.pick(&[0, 1, 7, len.saturating_sub(1), len.saturating_sub(8), len + 1, len + 8, len * 2]);
                    table.resize(other, 0);
                }
            }
        }
        if rng.once_in(4) && !table.is_empty() {
            let at = rng.below(table.len() as u64) as usize;
            table[at] ^= 0x80;
        }
        let word = generate::word(&mut rng, good.symbols);
        let room = generate::room(&mut rng, good.tapes, word.len());
        let begin = match rng.below(2) {
            0 => generate::fitting(&mut rng, &good),
            _ => Begin::Fresh { word, room },
        };
        let subject = Subject::new(sizes, table);
        let acts = every_operation(&mut rng);
        r.case(&case_of(&subject, begin, acts, Asking::None, rng.next()));
    }
    // Changed packed words: every bit of every word, and other lengths.
    let mut rng = r.rng();
    let sizes = Sizes { tapes: 1, symbols: 3, states: 4, start: 1 };
    let subject = Subject::new(sizes, generate::table(&mut rng, &sizes));
    for at in 0..subject.words.len() {
        let acts =
            |fuel: u64| (0..64).map(move |bit| Act::Fast { rule: NO_RULE, fuel, words: Words::Changed(at, 1 << bit) });
        let begin = Begin::Fresh { word: vec![1, 2, 1], room: [64, 0, 0] };
        r.case(&case_of(&subject, begin, acts(5).chain(acts(u64::MAX)).collect(), Asking::None, rng.next()));
    }
    for _ in 0..1000 * r.scale {
        let mut rng = r.rng();
        let sizes = generate::sizes(&mut rng, 600);
        let subject = Subject::new(sizes, generate::table(&mut rng, &sizes));
        let mut begin = generate::fitting(&mut rng, &sizes);
        if rng.once_in(2) {
            generate::break_value(&mut rng, &sizes, &mut begin);
        }
        let acts = (0..6).map(|_| Act::Fast {
            rule: NO_RULE,
            fuel: generate::fuel(&mut rng, 0),
            words: generate::wrong_words(&mut rng),
        });
        let acts = acts.collect();
        r.case(&case_of(&subject, begin, acts, Asking::None, rng.next()));
    }
}
