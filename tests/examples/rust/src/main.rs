//! How to call the library from Rust: the listing's table of document 01 on the blank word, run by
//! both engines and moved along a timeline.

mod turing;

use turing::{ChainSim, Machine, NO_RULE, Outcome, Refusal, Simulator, Timeline};

/// The moves are 25 for R and 24 for L: those of the two tapes that the machine lacks are N, which
/// makes 24.
#[rustfmt::skip]
const TABLE: [u8; 48] = [
    1, 1, 0, 1, 0, 0, 25, 0, // state 0 reads 0: writes 1, moves R, state 1
    1, 1, 0, 1, 0, 0, 24, 0, // state 0 reads 1: writes 1, moves L, state 1
    1, 0, 0, 1, 0, 0, 24, 0, // state 1 reads 0: writes 1, moves L, state 0
    1, 2, 0, 1, 0, 0, 25, 0, // state 1 reads 1: writes 1, moves R, state 2
    0, 0, 0, 0, 0, 0, 0, 0, // state 2 reads 0: not defined, the machine halts
    0, 0, 0, 0, 0, 0, 0, 0, // state 2 reads 1: not defined
];

/// Prints what a call answered.
fn tell(call: &str, answer: Result<Outcome, Refusal>) {
    match answer {
        Err(Refusal(number)) => println!("{call}: refused {number}"),
        Ok(Outcome { number, steps }) => {
            let name = ["halted", "out of fuel", "never halts, seen", "stopped", "full"][number as usize];
            println!("{call}: {name} at {steps}");
        }
    }
}

fn main() -> Result<(), Refusal> {
    let m = Machine { symbols: 2, states: 3, start: 0, table: &TABLE };

    // The second run goes on where the first ended.
    let mut sim = Simulator::new(m, &[], 64)?;
    tell("plain, fuel 5", sim.run(m, NO_RULE, 5));
    tell("plain, fuel 5 again", sim.run(m, NO_RULE, 5));

    let mut timeline = Timeline::new(m, Simulator::new(m, &[], 64)?, 8, 16)?;
    tell("timeline, seek 3", timeline.seek(m, 3));
    tell("timeline, back 1", timeline.back(m, 1));
    tell("timeline, forward 100", timeline.forward(m, 100));

    // The run-length engine tests its stop rule before a step; the plain one would stop after it, at 2.
    let mut chain = ChainSim::new(m, &[], 16)?;
    tell("run-length, stop on state 1, fuel 5", chain.run(m, 1, 5));
    Ok(())
}
