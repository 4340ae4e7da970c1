//! The differential runs. Options: `--scale N`, `--seed S`, `--only KIND`, `--wide`, `--trace`, `--list`.

use std::process::exit;
use std::sync::atomic::Ordering;
use std::time::{Duration, Instant};

use differential::runner::{BY_HAND, KINDS, PROGRESS, Runner};
use differential::tally::{DEPARTURES, TIMELINE, Tally};

struct Options {
    scale: u64,
    seed: u64,
    only: Vec<String>,
    wide: bool,
    trace: bool,
}

fn options() -> Options {
    let mut options = Options { scale: 1, seed: 1, only: Vec::new(), wide: false, trace: false };
    let mut arguments = std::env::args().skip(1);
    while let Some(argument) = arguments.next() {
        let mut value = || arguments.next().unwrap_or_else(|| usage(&argument));
        match argument.as_str() {
            "--scale" => options.scale = value().parse().unwrap_or_else(|_| usage(&argument)),
            "--seed" => options.seed = value().parse().unwrap_or_else(|_| usage(&argument)),
            "--only" => {
                let kind = value();
                if !KINDS.iter().chain(&BY_HAND).any(|k| k.0 == kind) {
                    usage(&kind);
                }
                options.only.push(kind);
            }
            "--wide" => options.wide = true,
            "--trace" => options.trace = true,
            "--list" => {
                KINDS.iter().for_each(|(name, what, _)| println!("{name:9} {what}"));
                BY_HAND.iter().for_each(|(name, what, _)| println!("{name:9} {what} (--wide)"));
                exit(0);
            }
            _ => usage(&argument),
        }
    }
    options
}

fn usage(at: &str) -> ! {
    eprintln!(
        "not understood: {at}\nusage: differential [--scale N] [--seed S] [--only KIND].. [--wide] [--trace] [--list]"
    );
    exit(2);
}

/// Ends the program if a single case takes longer than two minutes: a call that does not return.
fn watch() {
    std::thread::spawn(|| {
        let mut last = (0, Instant::now());
        loop {
            std::thread::sleep(Duration::from_secs(5));
            let now = PROGRESS.load(Ordering::Relaxed);
            if now != last.0 {
                last = (now, Instant::now());
            } else if last.1.elapsed() > Duration::from_secs(120) {
                println!("DIFFERENCE: no progress for two minutes in case {now} of all (--trace prints every case)");
                exit(3);
            }
        }
    });
}

fn main() {
    let options = options();
    let port = if cfg!(feature = "mock") { "mock.rs" } else { "libcapi" };
    println!("port: {port}, oracle: eight files with the pinned digests");
    println!("seed {}, scale {}", options.seed, options.scale);
    watch();
    let begin = Instant::now();
    let mut rows = Vec::new();
    let chosen = |kind: &str, by_hand: bool| match options.only.is_empty() {
        true => by_hand == options.wide,
        false => options.only.iter().any(|k| k == kind),
    };
    let usual = KINDS.into_iter().filter(|k| chosen(k.0, false));
    for (kind, _, runs) in usual.chain(BY_HAND.into_iter().filter(|k| chosen(k.0, true))) {
        let Options { scale, seed, trace, .. } = options;
        let mut runner = Runner { kind, seed, scale, trace, tally: Tally::default() };
        let start = Instant::now();
        runs(&mut runner);
        rows.push((kind, runner.tally, start.elapsed()));
    }
    let mut total = Tally::default();
    rows.iter().for_each(|(_, tally, _)| total.add(tally));
    rows.push(("all", total.clone(), begin.elapsed()));
    report(&rows);
    println!("no unexplained difference in {} cases", total.cases);
}

fn report(rows: &[(&str, Tally, Duration)]) {
    println!();
    print!("{:8} {:>9} {:>10} {:>10} {:>11}", "kind", "cases", "calls", "questions", "steps");
    println!(
        " {:>9} {:>9} {:>9} {:>9} {:>9} {:>8} {:>7}",
        "halted", "fuel", "never", "stopped", "full", "left out", "s"
    );
    for (kind, t, time) in rows {
        print!("{kind:8} {:>9} {:>10} {:>10} {:>11}", t.cases, t.calls, t.questions, t.steps);
        t.outcomes.iter().for_each(|n| print!(" {n:>9}"));
        println!(" {:>8} {:>7.1}", t.skipped, time.as_secs_f64());
    }
    println!("\nrefusals by number");
    let numbers: Vec<usize> = (1..19).filter(|n| rows.iter().any(|r| r.1.refusals[*n] > 0)).collect();
    print!("{:8}", "kind");
    numbers.iter().for_each(|n| print!(" {n:>8}"));
    println!();
    for (kind, t, _) in rows {
        print!("{kind:8}");
        numbers.iter().for_each(|&n| print!(" {:>8}", t.refusals[n]));
        println!();
    }
    println!("\nnamed departures from the Rust");
    for (i, what) in DEPARTURES.iter().enumerate() {
        println!("({}) {what}", i + 1);
    }
    print!("{:8}", "kind");
    (1..=DEPARTURES.len()).for_each(|n| print!(" {:>9}", format!("({n})")));
    println!();
    for (kind, t, _) in rows {
        print!("{kind:8}");
        t.departures.iter().for_each(|n| print!(" {n:>9}"));
        println!();
    }
    let counted = |t: &Tally| t.timeline.iter().any(|&n| n > 0);
    if rows.iter().any(|r| counted(&r.1)) {
        println!("\ntimelines, calls compared");
        print!("{:8}", "kind");
        TIMELINE.iter().for_each(|what| print!("  {what}"));
        println!();
        for (kind, t, _) in rows.iter().filter(|r| counted(&r.1)) {
            print!("{kind:8}");
            TIMELINE.iter().zip(t.timeline).for_each(|(what, n)| print!("  {n:>width$}", width = what.len()));
            println!();
        }
    }
    let beside: u64 = rows.last().map_or(0, |r| r.1.beside);
    if beside > 0 {
        println!("\n{beside} configurations of the run-length engine compared with the plain engine's");
    }
    let wrote_more: u64 = rows.last().map_or(0, |r| r.1.wrote_more);
    if wrote_more > 0 {
        println!("\nnote: {wrote_more} accepted calls wrote into `out` beyond what is documented");
    }
}
