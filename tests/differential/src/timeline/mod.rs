//! The timeline over both engines: what it must turn away, a model of it over the Rust's engines,
//! cases, and runs.

pub mod case;
pub mod compare;
pub mod facts;
pub mod ffi;
#[path = "gen.rs"] // `gen` is a word of the language
pub mod generate;
pub mod held;
pub mod kind;
pub mod law;
#[cfg(feature = "mock")]
mod mock;
#[cfg(feature = "mock")]
mod mock_engines;
#[cfg(feature = "mock")]
#[expect(clippy::missing_safety_doc, clippy::too_many_arguments, reason = "as the port's")]
pub mod mock_exports;
pub mod model;
pub mod odd;
pub mod on_cells;
pub mod on_runs;
pub mod runs;
