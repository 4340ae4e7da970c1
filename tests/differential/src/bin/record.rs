//! Writes the list of the Rust's answers that the port's program `replay` reads: a file for each kind, into the folder
//! named. Options: `--seed S`.

use std::path::PathBuf;
use std::process::exit;

use differential::record::{KINDS, lines};

/// As many bytes as `replay` reads of a file.
const MOST: usize = 65_536;

fn usage() -> ! {
    eprintln!("usage: record FOLDER [--seed S]");
    exit(2);
}

fn main() {
    let mut arguments = std::env::args().skip(1);
    let (mut folder, mut seed) = (None, 1);
    while let Some(argument) = arguments.next() {
        match argument.as_str() {
            "--seed" => seed = arguments.next().and_then(|s| s.parse().ok()).unwrap_or_else(|| usage()),
            _ => folder = Some(PathBuf::from(argument)),
        }
    }
    let folder = folder.unwrap_or_else(|| usage());
    println!("oracle: eight files with the pinned digests, seed {seed}");
    let mut all = (0, 0);
    for kind in &KINDS {
        let text = lines(kind, seed);
        assert!(text.len() <= MOST, "{} is {} bytes long, over {MOST}", kind.0, text.len());
        std::fs::write(folder.join(kind.0), &text).unwrap_or_else(|e| panic!("{}: {e}", folder.display()));
        println!("{:15} {:5} lines {:6} bytes", kind.0, kind.1, text.len());
        all = (all.0 + kind.1, all.1 + text.len());
    }
    println!("{:15} {:5} lines {:6} bytes", "all", all.0, all.1);
}
