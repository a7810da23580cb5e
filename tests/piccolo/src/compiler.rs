//! The neighbourhood piccolo's parser expects to find itself in: a `lexer` beside it and a
//! `StringInterner` above it. Only the parser is piccolo's; it is compiled where it lies, unchanged.

use std::fmt::Debug;

pub mod lexer;

// A copy of the file would have to be kept equal to it; the path leads out of the repository to the
// folder `shared` beside it.
#[path = "../../../../shared/docs/src/src/compiler/parser.rs"]
#[allow(dead_code, clippy::all)]
pub mod parser;

/// What the parser carries as a string. The streams carry ids, so an id is all an interner makes.
pub trait StringInterner {
    type String: Clone + Debug + PartialEq;

    fn intern(&mut self, id: u64) -> Self::String;
}
