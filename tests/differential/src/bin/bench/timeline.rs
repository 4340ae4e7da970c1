//! Timelines with the Rust's settings: a seek far out, then random seeks to and fro.

use std::rc::Rc;

use differential::case::Subject;
use differential::checkpoint::{Engine, Timeline};
use differential::generate::{Rng, standard};
use differential::law::MAX_STEPS;
use differential::machine::Machine;
use differential::oracle;
use differential::rle::ChainSim;
use differential::sim::Simulator;
use differential::symbol::Symbol;
use differential::timeline::kind::{Kind, OnCells, OnRuns};
use differential::timeline::law::{Call, RUST};

use crate::{grow, least, median, now, sweep};

/// One machine, the step of the first seek, and how many seeks follow.
struct Job {
    name: &'static str,
    subject: Rc<Subject>,
    word: Vec<u8>,
    reach: u64,
    seeks: u64,
    /// Cells, or run places of each side.
    room: usize,
}

impl Job {
    /// The steps to seek, one after the other.
    fn targets(&self) -> Vec<u64> {
        let mut rng = Rng::new(5);
        let mut all = vec![self.reach];
        all.extend((0..self.seeks).map(|_| rng.below(self.reach)));
        all
    }
}

/// The outcome's number and steps after each seek, which both sides must agree in.
type Answers = Vec<[u64; 2]>;

fn rust<E: Engine>(job: &Job, engine: E) -> (f64, Answers) {
    let (targets, mut answers) = (job.targets(), Vec::new());
    let start = now();
    let mut timeline = Timeline::new(engine);
    for target in targets {
        let [number, steps, ..] = oracle::answer(timeline.seek(target));
        answers.push([number.expect("a number"), steps.expect("a step")]);
    }
    (now() - start, answers)
}

fn port<K: Kind>(job: &Job) -> (f64, Answers) {
    let (targets, mut answers, mut out) = (job.targets(), Vec::new(), [0; 8]);
    let begin = K::fresh(&job.word, job.room);
    let mut held = K::begin(&job.subject, &begin, &mut Rng::new(1)).expect("a fresh engine");
    let slot = K::slot(&job.subject.sizes, &held);
    let start = now();
    let mut store = vec![0; (RUST.0 as usize + 1) * slot];
    let mut times = [0; 4];
    let made = K::make(&job.subject, &held, &mut store, &mut times, RUST, &mut out);
    assert_eq!(made, 0, "{}: a new timeline", job.name);
    for target in targets {
        let call = Call::Seek(target).numbers();
        let result = K::call(&job.subject, &mut held, &mut store, &mut times, call, &mut out);
        assert_eq!(result, 0, "{}: a seek was refused", job.name);
        answers.push([out[0], out[1]]);
    }
    (now() - start, answers)
}

fn row(job: &Job, reps: usize, mut rust: impl FnMut() -> (f64, Answers), mut port: impl FnMut() -> (f64, Answers)) {
    let (mut r, mut p) = (vec![], vec![]);
    for _ in 0..reps {
        let (time, want) = rust();
        r.push(time);
        let (time, got) = port();
        p.push(time);
        assert!(got == want, "{}: answers differ", job.name);
    }
    let ratio = format!("{:.3} ({:.3})", median(&p) / median(&r), least(&p) / least(&r));
    println!("{:14} {:>20} {:>6} {:>9.4}  {:>17}", job.name, job.reach, job.seeks, median(&r), ratio);
}

/// Times both timelines.
pub fn timelines(reps: usize, only: Option<&str>, marks: Vec<u8>) {
    println!("\ntimelines with m 512 and interval 4,096");
    println!("{:14} {:>20} {:>6} {:>9}  {:>17}", "machine", "first seek", "seeks", "Rust s", "port / Rust");
    let bb5 = || standard("1RB1LC_1RC1RB_1RD0LE_1LA1LD_1RZ0LA");
    let job = |name, subject, word, reach, seeks, room| Job { name, subject, word, reach, seeks, room };
    let far = if cfg!(feature = "mock") { 1_000_000 } else { 10_000_000 };
    let wanted = |job: &&Job| only.is_none_or(|o| o == job.name || o == "timeline");
    let plain = [
        job("plain BB5", bb5(), vec![], far, 200, 1 << 14),
        job("plain sweep", sweep(), marks.clone(), far, 200, 1 << 14),
    ];
    for job in plain.iter().filter(wanted) {
        let machine: &Machine = job.subject.machine.as_ref().expect("a good table");
        let word: Vec<Symbol> = job.word.iter().map(|&a| Symbol::new(a)).collect();
        row(job, reps, || rust(job, Simulator::new(machine, &word)), || port::<OnCells>(job));
    }
    let runs = [
        job("runs BB5", bb5(), vec![], 47_000_000, 2000, 5120),
        job("runs sweep", sweep(), marks, 1 << 30, 400, 16),
        job("runs grow", grow(), vec![], 1 << 42, 50, 16),
        job("runs walk", differential::generate::one_tape(2, 1, &[(0, 0, 1, 1, 0)]), vec![], MAX_STEPS, 20_000, 16),
    ];
    for job in runs.iter().filter(wanted) {
        let machine: &Machine = job.subject.machine.as_ref().expect("a good table");
        let word: Vec<Symbol> = job.word.iter().map(|&a| Symbol::new(a)).collect();
        row(job, reps, || rust(job, ChainSim::new(machine, &word).expect("one tape")), || port::<OnRuns>(job));
    }
}
