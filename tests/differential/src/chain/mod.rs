//! The run-length engine: what it must turn away, the way into the Rust's, cases, and runs.

pub mod case;
pub mod compare;
#[path = "gen.rs"] // `gen` is a word of the language
pub mod generate;
pub mod held;
pub mod law;
#[cfg(feature = "mock")]
pub mod mock;
pub mod oracle;
pub mod runs;
