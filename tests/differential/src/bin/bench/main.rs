//! The Rust's engines and the port's in one process, interleaved: processor time, median of nine.
//! Options: `--reps N`, `--only NAME` (a machine, `chain` for the run-length engine's, `timeline`, or `growth`, which is
//! measured only if it is asked for).

mod growth;
mod timeline;

use differential::case::{NO_RULE, Subject};
use differential::chain::law::Value;
use differential::generate::{one_tape, standard, three_tapes};
use differential::law::Engine;
use differential::machine::Machine;
use differential::oracle;
use differential::outcome::Outcome;
use differential::port;
use differential::rle::ChainSim;
use differential::sim::Simulator;
use differential::symbol::Symbol;

use std::rc::Rc;

#[repr(C)]
struct Timespec {
    seconds: i64,
    nanoseconds: i64,
}

unsafe extern "C" {
    fn clock_gettime(clock: i32, time: *mut Timespec) -> i32;
}

/// The processor time of this thread, in seconds.
fn now() -> f64 {
    const CLOCK_THREAD_CPUTIME_ID: i32 = 3;
    let mut time = Timespec { seconds: 0, nanoseconds: 0 };
    // SAFETY: the second argument is a valid timespec of a 64-bit Linux.
    let result = unsafe { clock_gettime(CLOCK_THREAD_CPUTIME_ID, &mut time) };
    assert_eq!(result, 0, "clock_gettime");
    time.seconds as f64 + time.nanoseconds as f64 * 1e-9
}

/// One machine to run.
struct Job {
    name: &'static str,
    subject: Rc<Subject>,
    word: Vec<u8>,
    fuel: u64,
    /// The outcome's number and steps.
    end: (u64, u64),
}

/// How the port is called.
#[derive(Clone, Copy, PartialEq)]
enum Call {
    Run,
    Packed,
}

const ROOM: usize = 1 << 17;

fn rust(job: &Job) -> f64 {
    let machine: &Machine = job.subject.machine.as_ref().expect("a good table");
    let word: Vec<Symbol> = job.word.iter().map(|&a| Symbol::new(a)).collect();
    let mut sim = Simulator::new(machine, &word);
    let start = now();
    let outcome: Outcome = sim.run(job.fuel);
    let time = now() - start;
    let [number, steps, ..] = oracle::answer(outcome);
    assert_eq!((number, steps), (Some(job.end.0), Some(job.end.1)), "{}: the Rust", job.name);
    time
}

fn port(job: &Job, call: Call) -> f64 {
    let (s, t) = (job.subject.sizes, &job.subject.table);
    let mut cells = [vec![0; ROOM], vec![0; ROOM], vec![0; ROOM]];
    let (mut state, mut engine, mut out): (u16, Engine, port::Out) = (0, [0; 16], [0; 8]);
    let [a, b, c] = &mut cells;
    let made = port::new(s, t, &job.word, [a, b, c], &mut state, &mut engine, &mut out);
    assert_eq!(made, 0, "{}: a fresh engine", job.name);
    let [a, b, c] = &mut cells;
    let fuel = (NO_RULE, job.fuel);
    let start = now();
    let result = match call {
        Call::Run => port::run(s, t, [a, b, c], &mut state, &mut engine, fuel, &mut out),
        Call::Packed => port::run_packed(s, t, &job.subject.words, [a, b, c], &mut state, &mut engine, fuel, &mut out),
    };
    let time = now() - start;
    assert_eq!(result, 0, "{}: the run was refused", job.name);
    assert_eq!((out[0], out[1]), job.end, "{}: the port", job.name);
    time
}

fn median(times: &[f64]) -> f64 {
    let mut times = times.to_vec();
    times.sort_by(f64::total_cmp);
    times[times.len() / 2]
}

fn least(times: &[f64]) -> f64 {
    times.iter().copied().fold(f64::INFINITY, f64::min)
}

/// Goes back and forth between two marks over blanks, in one state each way.
fn sweep() -> Rc<Subject> {
    let (l, r) = (0, 1);
    one_tape(
        3,
        2,
        &[(0, 0, 0, r, 0), (0, 1, 1, l, 1), (0, 2, 2, r, 0), (1, 0, 0, l, 1), (1, 1, 1, l, 1), (1, 2, 2, r, 0)],
    )
}

/// Goes back and forth over ones and adds one at either end.
fn grow() -> Rc<Subject> {
    let (l, r) = (0, 1);
    one_tape(2, 2, &[(0, 0, 1, l, 1), (0, 1, 1, r, 0), (1, 0, 1, r, 0), (1, 1, 1, l, 1)])
}

/// One machine for the run-length engines, run so many times.
struct ChainJob {
    job: Job,
    times: u32,
}

const PLACES: usize = 1 << 14;

/// The time, and the macro steps of one run.
fn chain_rust(ChainJob { job, times }: &ChainJob) -> (f64, u64) {
    let machine: &Machine = job.subject.machine.as_ref().expect("a good table");
    let word: Vec<Symbol> = job.word.iter().map(|&a| Symbol::new(a)).collect();
    let (mut time, mut macros) = (0.0, 0);
    for _ in 0..*times {
        let mut sim = ChainSim::new(machine, &word).expect("one tape");
        let start = now();
        let outcome: Outcome = sim.run(job.fuel);
        time += now() - start;
        let [number, steps, ..] = oracle::answer(outcome);
        assert_eq!((number, steps), (Some(job.end.0), Some(job.end.1)), "{}: the Rust", job.name);
        macros = sim.macro_steps();
    }
    (time, macros)
}

fn chain_port(ChainJob { job, times }: &ChainJob) -> f64 {
    let (s, t) = (job.subject.sizes, &job.subject.table);
    let (mut ls, mut ll, mut rs, mut rl) = (vec![0; PLACES], vec![0; PLACES], vec![0; PLACES], vec![0; PLACES]);
    let mut time = 0.0;
    for _ in 0..*times {
        let (mut value, mut out) = (Value { state: 0, cur: 0, engine: [0; 7] }, [0; 8]);
        let made = port::chain_new(s, t, &job.word, (&mut ls, &mut ll, &mut rs, &mut rl), &mut value, &mut out);
        assert_eq!(made, 0, "{}: a fresh engine", job.name);
        let fuel = (NO_RULE, job.fuel);
        let start = now();
        let result = port::chain_run(s, t, (&mut ls, &mut ll, &mut rs, &mut rl), &mut value, fuel, &mut out);
        time += now() - start;
        assert_eq!(result, 0, "{}: the run was refused", job.name);
        assert_eq!((out[0], out[1]), job.end, "{}: the port", job.name);
    }
    time
}

fn chain_jobs(marks: Vec<u8>) -> [ChainJob; 4] {
    let job = |name, subject, word, fuel, end| Job { name, subject, word, fuel, end };
    let beaver = |name, text, steps| job(name, standard(text), vec![], 1 << 40, (0, steps));
    [
        ChainJob { job: beaver("BB5", "1RB1LC_1RC1RB_1RD0LE_1LA1LD_1RZ0LA", 47_176_870), times: 200 },
        ChainJob { job: beaver("BB(2,4)", "1RB2LA1RA1RA_1LB1LA3RB1RZ", 3_932_964), times: 400 },
        ChainJob { job: job("sweep", sweep(), marks, 1 << 34, (1, 1 << 34)), times: 1 },
        ChainJob { job: job("grow", grow(), vec![], 1 << 42, (1, 1 << 42)), times: 1 },
    ]
}

fn chain(reps: usize, only: Option<&str>, marks: Vec<u8>) {
    println!("\nrun-length engine");
    println!("{:8} {:>12} {:>9} {:>9}  {:>17}", "machine", "macro steps", "Rust s", "ns/macro", "run / Rust");
    for job in chain_jobs(marks).iter().filter(|j| only.is_none_or(|o| o == j.job.name || o == "chain")) {
        let (mut r, mut p, mut macros) = (vec![], vec![], 0);
        for _ in 0..reps {
            let (time, made) = chain_rust(job);
            r.push(time);
            p.push(chain_port(job));
            macros = made * u64::from(job.times);
        }
        let ratio = format!("{:.3} ({:.3})", median(&p) / median(&r), least(&p) / least(&r));
        let each = median(&r) / macros as f64 * 1e9;
        println!("{:8} {:>12} {:>9.4} {:>9.2}  {:>17}", job.job.name, macros, median(&r), each, ratio);
    }
}

fn main() {
    if cfg!(debug_assertions) {
        eprintln!("the Rust is built with overflow checks: use --profile timed");
        std::process::exit(2);
    }
    let (mut reps, mut only) = (9_usize, None);
    let mut arguments = std::env::args().skip(1);
    while let Some(argument) = arguments.next() {
        let value = arguments.next().expect("an option has a value");
        match argument.as_str() {
            "--reps" => reps = value.parse().expect("a number"),
            "--only" => only = Some(value),
            _ => panic!("usage: bench [--reps N] [--only NAME]"),
        }
    }
    // The mock scans the whole stretch at every step of a sweep.
    let swept = if cfg!(feature = "mock") { 500_000 } else { 20_000_000 };
    let width = 8192;
    let mut marks = vec![0; width];
    marks[0] = 2;
    marks[width - 1] = 1;
    let jobs = [
        Job {
            name: "BB5",
            subject: standard("1RB1LC_1RC1RB_1RD0LE_1LA1LD_1RZ0LA"),
            word: vec![],
            fuel: 1 << 40,
            end: (0, 47_176_870),
        },
        Job {
            name: "BB(2,4)",
            subject: standard("1RB2LA1RA1RA_1LB1LA3RB1RZ"),
            word: vec![],
            fuel: 1 << 40,
            end: (0, 3_932_964),
        },
        Job { name: "sweep", subject: sweep(), word: marks.clone(), fuel: swept, end: (1, swept) },
        Job { name: "three", subject: three_tapes(), word: vec![1; 1000], fuel: 20_000_000, end: (1, 20_000_000) },
    ];
    println!("port: {}; processor time, {reps} rounds", if cfg!(feature = "mock") { "mock.rs" } else { "libcapi" });
    println!(
        "{:8} {:>12} {:>9} {:>9} {:>9} {:>9}  {:>17} {:>17}",
        "machine", "steps", "Rust s", "Rust M/s", "run M/s", "fast M/s", "run / Rust", "fast run / Rust"
    );
    for job in jobs.iter().filter(|j| only.as_deref().is_none_or(|o| o == j.name)) {
        let packed = job.subject.sizes.tapes == 1;
        let (mut r, mut p, mut f) = (vec![], vec![], vec![]);
        for _ in 0..reps {
            r.push(rust(job));
            p.push(port(job, Call::Run));
            if packed {
                f.push(port(job, Call::Packed));
            }
        }
        let ratio = |times: &[f64]| match times {
            [] => String::from("-"),
            _ => format!("{:.3} ({:.3})", median(times) / median(&r), least(times) / least(&r)),
        };
        let steps = job.end.1;
        let rate = |times: &[f64]| match times {
            [] => String::from("-"),
            _ => format!("{:.0}", steps as f64 / median(times) / 1e6),
        };
        print!("{:8} {:>12} {:>9.4} {:>9} {:>9} {:>9}  ", job.name, steps, median(&r), rate(&r), rate(&p), rate(&f));
        println!("{:>17} {:>17}", ratio(&p), ratio(&f));
    }
    chain(reps, only.as_deref(), marks.clone());
    timeline::timelines(reps, only.as_deref(), marks);
    if only.as_deref() == Some("growth") {
        growth::growth(reps);
    }
}
