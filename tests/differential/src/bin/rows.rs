//! The rows that the listing's calls must print, from the Rust's plain engine: for each call a run from the start to the
//! call's target. The port has no part in it.
//!
//! Reads cases, one after the other, and prints each call's row and then `end`:
//!
//! ```text
//! machine SYMBOLS STATES START
//! entry STATE READ WRITE MOVE NEXT        (as many as there are; MOVE is L, R or N)
//! word SYMBOL SYMBOL ..
//! call NAME NUMBER                        (as many as there are; NAME is seek, forward or back)
//! end
//! ```
//!
//! A case whose calls take more steps than the limit, in sum and each from the start, prints `long` for its rows.
//! Argument: the limit, 100,000,000 if not given.

use std::io::{self, BufRead, Write};
use std::rc::Rc;

use differential::law::Sizes;
use differential::machine::Machine;
use differential::oracle::{self, Sim};
use differential::tape::TapeView;
use differential::timeline::kind::{Kind, OnCells};
use differential::timeline::law::{self, Call};

/// "4,096 cells a tape".
const ROOM: [usize; 3] = [4096; 3];

/// A case as it is read.
struct Case {
    sizes: Sizes,
    table: Vec<u8>,
    word: Vec<u8>,
    calls: Vec<Call>,
}

impl Case {
    fn new(numbers: &[u64]) -> Self {
        let sizes = Sizes { tapes: 1, symbols: numbers[0], states: numbers[1], start: numbers[2] };
        Self { sizes, table: vec![0; 8 * sizes.entries()], word: Vec::new(), calls: Vec::new() }
    }

    /// Puts an entry in its place of the table, in document 01's layout.
    fn entry(&mut self, state: u64, read: u64, write: u64, dir: u8, next: u64) {
        let at = 8 * (state * self.sizes.symbols + read) as usize;
        let [low, high] = (next as u16).to_le_bytes();
        self.table[at..at + 8].copy_from_slice(&[1, low, high, write as u8, 0, 0, dir + 3 * 2 + 9 * 2, 0]);
    }

    /// The rows; none where they take more steps than the limit.
    fn rows(&self, limit: u64) -> Option<Vec<String>> {
        assert_eq!(self.sizes.table(&self.table), None, "the table check");
        let machine = Rc::new(oracle::machine(&self.sizes, &self.table));
        let (mut here, mut left, mut rows) = (0, limit, Vec::new());
        for call in &self.calls {
            let target = call.target(here);
            if let Some(refusal) = law::target(target) {
                rows.push(format!("refused {}", refusal.number));
                continue;
            }
            let (row, reached) = self.go(&machine, target as u64, left)?;
            rows.push(row);
            here = reached;
            left -= reached;
        }
        Some(rows)
    }

    /// A run from the start to the target: its row, and the step that the engine has then reached.
    fn go(&self, machine: &Rc<Machine>, target: u64, limit: u64) -> Option<(String, u64)> {
        let mut sim = oracle::fresh(machine, &self.word);
        let result = OnCells::advance(&mut sim, ROOM, target.min(limit));
        let answer = ["halted", "fuel", "never", "stopped", "full"][result[0].unwrap_or(3) as usize];
        let cut = sim.steps() == limit && limit < target && answer != "halted" && answer != "full";
        (!cut).then(|| (row(answer, &sim), sim.steps()))
    }
}

/// Answer, steps, state, head, lowest, highest, non-blank cells.
fn row(answer: &str, sim: &Sim) -> String {
    let (tape, state) = (sim.tape(0), sim.state().get());
    let (touched, score) = (tape.touched(), tape.count_non_blank());
    format!("{answer} {} {state} {} {} {} {score}", sim.steps(), tape.head(), touched.start(), touched.end())
}

fn dir(name: &str) -> u8 {
    ["L", "R", "N"].iter().position(|d| *d == name).expect("L, R or N") as u8
}

fn call(name: &str, number: u64) -> Call {
    match name {
        "seek" => Call::Seek(number),
        "forward" => Call::Forward(number),
        _ => Call::Back(number),
    }
}

fn main() -> io::Result<()> {
    let limit = std::env::args().nth(1).map_or(100_000_000, |n| n.parse().expect("a number of steps"));
    let mut out = io::BufWriter::new(io::stdout().lock());
    let mut case = Case::new(&[1, 1, 0]);
    for line in io::stdin().lock().lines() {
        let line = line?;
        let fields: Vec<&str> = line.split(' ').collect();
        let number = |i: usize| fields[i].parse::<u64>().unwrap_or_else(|e| panic!("{line}: {e}"));
        match fields[0] {
            "machine" => case = Case::new(&[number(1), number(2), number(3)]),
            "entry" => case.entry(number(1), number(2), number(3), dir(fields[4]), number(5)),
            "word" => case.word = (1..fields.len()).map(|i| number(i) as u8).collect(),
            "call" => case.calls.push(call(fields[1], number(2))),
            _ => {
                let rows = case.rows(limit).unwrap_or_else(|| vec!["long".to_string()]);
                rows.iter().try_for_each(|row| writeln!(out, "{row}"))?;
                writeln!(out, "end")?;
                out.flush()?;
            }
        }
    }
    Ok(())
}
