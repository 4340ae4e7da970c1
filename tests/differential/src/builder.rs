//! A stub of our own for the module `builder`, which is not among the oracle's eight files.
//! Nothing here is ever called: [`crate::oracle`] fills a `Machine` itself.

pub struct MachineBuilder;

impl MachineBuilder {
    pub fn new(_name: impl Into<String>) -> Self {
        Self
    }
}

#[derive(Debug)]
pub enum BuildError {
    BlankInInputAlphabet { blank: char },
    TooManySymbols { max: usize },
}
