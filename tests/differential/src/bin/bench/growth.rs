//! How the cost of a step grows with the number of steps and with the width of the tape: time per step, both sides.

use crate::{Call, ChainJob, Job, chain_port, chain_rust, grow, median, port, rust, sweep};

/// The sweep over a stretch of that width, for so many steps.
fn swept(width: usize, steps: u64) -> Job {
    let mut word = vec![0; width];
    word[0] = 2;
    word[width - 1] = 1;
    Job { name: "sweep", subject: sweep(), word, fuel: steps, end: (1, steps) }
}

fn medians(reps: usize, mut time: impl FnMut() -> f64) -> f64 {
    median(&(0..reps).map(|_| time()).collect::<Vec<_>>())
}

fn plain(reps: usize, width: usize, steps: u64) {
    let job = swept(width, steps);
    let each = |time: f64| time / steps as f64 * 1e9;
    let r = medians(reps, || rust(&job));
    let p = medians(reps, || port(&job, Call::Run));
    let f = medians(reps, || port(&job, Call::Packed));
    let rate = steps as f64 / p / 1e6;
    println!("{width:>8} {steps:>14} {:>9.3} {:>9.3} {:>9.3} {rate:>12.0}", each(r), each(p), each(f));
}

/// Prints two tables for the plain engine and one for the run-length engine.
pub fn growth(reps: usize) {
    println!("\nplain engine, the sweep: ns a step, and the port's million steps a second");
    println!("{:>8} {:>14} {:>9} {:>9} {:>9} {:>12}", "width", "steps", "Rust", "run", "fast run", "run M/s");
    for steps in [1_000_000, 10_000_000, 100_000_000, 1_000_000_000] {
        plain(reps, 8192, steps);
    }
    for width in [64, 512, 4096, 32_768, 65_536] {
        plain(reps, width, 100_000_000);
    }
    println!("\nrun-length engine, ones with one added at either end: ns a macro step");
    println!("{:>14} {:>12} {:>9} {:>9}", "steps", "macro steps", "Rust", "run");
    for power in [30, 34, 38, 42] {
        let steps = 1 << power;
        let job = Job { name: "grow", subject: grow(), word: vec![], fuel: steps, end: (1, steps) };
        let job = ChainJob { job, times: 1 };
        let mut macros = 0;
        let r = medians(reps, || {
            let (time, made) = chain_rust(&job);
            macros = made;
            time
        });
        let p = medians(reps, || chain_port(&job));
        let each = |time: f64| time / macros as f64 * 1e9;
        println!("{steps:>14} {macros:>12} {:>9.2} {:>9.2}", each(r), each(p));
    }
}
