//! The port's engines against the Rust's: see README.md.

extern crate alloc;

// The oracle: eight files of the customer's, unchanged, as modules of this crate. They say
// `crate::symbol` and so on, so they must be at the root; their `pub(crate)` fields are then
// in reach of `oracle.rs`.
include!(concat!(env!("OUT_DIR"), "/oracle_modules.rs"));
mod builder;

pub mod case;
pub mod chain;
pub mod compare;
pub mod damage;
pub mod document_cases;
pub mod encoder;
#[cfg(feature = "mock")]
pub mod faults;
#[path = "gen.rs"] // `gen` is a word of the language
pub mod generate;
pub mod held;
pub mod large;
pub mod law;
pub mod lent;
pub mod limits;
#[cfg(feature = "mock")]
pub mod mock;
pub mod named;
pub mod oracle;
pub mod packed;
pub mod port;
pub mod record;
pub mod runner;
pub mod runs;
pub mod tally;
pub mod timeline;
