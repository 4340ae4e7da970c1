//! What is run by hand only (`--wide`): tapes that double past 2^20 cells, and tables over 2 MB.

use std::rc::Rc;

use crate::case::{Act, Asking, Begin, Subject};
use crate::generate::{self, Rng};
use crate::law::{Engine, Sizes, fields};
use crate::runner::Runner;
use crate::runs::{self, L, N, R, alternating, case_of, fast, run, walkers};
use crate::timeline::case::Case;
use crate::timeline::generate::{Source, calls};
use crate::timeline::kind::{OnCells, OnRuns};
use crate::timeline::runs as timeline;
use crate::{chain, limits};

/// Cells of the longest tapes, and a length that doubles to them.
const MOST: usize = 1 << 22;
/// The entries of tables of 128 MB.
const ENTRIES: u64 = 1 << 24;

/// Machines that walk off over blanks on one tape, two or three.
fn walks() -> Vec<Rc<Subject>> {
    let several: [&[u8]; 5] = [&[R, L], &[N, L], &[R, N], &[R, L, R], &[N, N, L]];
    let mut all: Vec<_> = several.into_iter().map(|moves| walkers(moves, 2)).collect();
    all.extend([alternating(R), alternating(L)]);
    all
}

/// A value with tapes of about 2^20 cells, the heads at an end or near it.
fn long_value(rng: &mut Rng, sizes: &Sizes) -> Begin {
    let mut engine: Engine = std::array::from_fn(|_| rng.next());
    engine[0] = rng.below(1 << 40);
    let cells = std::array::from_fn(|t| {
        if t as u64 >= sizes.tapes {
            return Vec::new();
        }
        let len = rng.pick(&[1 << 20, (1 << 20) - 1, (1 << 20) + 1, (1 << 21) - 1, 1 << 21]);
        let (head, origin) = (rng.pick(&[0, len - 1, 5, len - 6]), rng.below(len));
        let (lowest, highest) = (rng.between(0, head), rng.between(head, len - 1));
        engine[fields(t)..fields(t + 1)].copy_from_slice(&[len, origin, head, lowest, highest]);
        let mut cells = vec![0; len as usize];
        for _ in 0..1000 {
            cells[rng.below(len) as usize] = rng.below(sizes.symbols) as u8;
        }
        cells.resize(rng.pick(&[2 * len - 1, 2 * len, 2 * len + 7]) as usize, 0xa5);
        cells
    });
    Begin::Outside { state: rng.below(sizes.states) as u16, engine, cells }
}

/// The plain engine.
pub fn cells(r: &mut Runner) {
    for subject in walks() {
        for room in [MOST - 1, MOST] {
            let begin = || Begin::Fresh { word: vec![], room: [room; 3] };
            let dirt = r.rng().next();
            for way in [run as fn(u64) -> Act, fast] {
                let acts = vec![way(1 << 20), way((1 << 20) - 20), way(4), Act::Step, way(1 << 16), Act::Step];
                r.case(&case_of(&subject, begin(), acts, Asking::Some(4), dirt));
            }
        }
        // A blank word of the greatest length: the first doubling goes past 2^21 cells.
        let begin = Begin::Fresh { word: vec![0; 1 << 20], room: [MOST; 3] };
        let dirt = r.rng().next();
        r.case(&case_of(&subject, begin, vec![run(1 << 20), run(1 << 20), fast(100)], Asking::Some(4), dirt));
    }
    for _ in 0..60 * r.scale {
        let mut rng = r.rng();
        let sizes = generate::sizes(&mut rng, 300);
        let subject = Subject::new(sizes, generate::table(&mut rng, &sizes));
        let begin = long_value(&mut rng, &sizes);
        let acts = generate::acts(&mut rng, &sizes, 5, 0);
        r.case(&case_of(&subject, begin, acts, Asking::Some(3), rng.next()));
    }
}

/// Timelines over the plain engine.
pub fn timelines(r: &mut Runner) {
    for subject in walks() {
        for set in [(1, 1 << 18), (3, 70_000), (2, 1 << 20)] {
            let mut rng = r.rng();
            let reach = MOST as u64 / 2 + 5;
            let list = calls(&mut rng, 8, reach, set.1);
            let begin = Begin::Fresh { word: vec![], room: [rng.pick(&[MOST - 1, MOST]); 3] };
            r.case(&Case { dirt: rng.next(), ..Case::<OnCells>::new(&subject, begin, set, &list) });
        }
    }
    for _ in 0..20 * r.scale {
        let mut rng = r.rng();
        let sizes = OnCells::sizes(&mut rng, 300);
        let subject = Subject::new(sizes, generate::table(&mut rng, &sizes));
        let (begin, set) = (long_value(&mut rng, &sizes), (rng.between(1, 3), rng.between(1, 2000)));
        let list = calls(&mut rng, 6, 5000, set.1);
        r.case(&Case { dirt: rng.next(), ..Case::<OnCells>::new(&subject, begin, set, &list) });
    }
}

/// Tables over 2 MB, on both engines and both timelines.
pub fn tables(r: &mut Runner) {
    limits::largest_tables(r);
    for _ in 0..6 * r.scale {
        runs::wide_list(r, ENTRIES);
        chain::runs::wide_list(r, ENTRIES);
        timeline::wide_list::<OnCells>(r, ENTRIES);
        timeline::wide_list::<OnRuns>(r, ENTRIES);
    }
}
