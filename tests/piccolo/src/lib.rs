//! The oracle: piccolo's own parser run on a token stream, its tree laid flat and its errors told
//! by number.
//!
//! The parser descends up to 200 levels with large frames: call [`parse`] inside
//! [`with_deep_stack`].

#![forbid(unsafe_code)]

mod compiler;
mod flatten;
mod source;

use std::thread;

use compiler::{
    lexer::{self, PLAIN_NAMES},
    parser::{parse_chunk, ParseError, ParseErrorKind},
    StringInterner,
};

/// A string or name as the streams have it.
#[derive(Debug, Clone, PartialEq)]
struct Id(u64);

struct Ids;

impl StringInterner for Ids {
    type String = Id;

    fn intern(&mut self, id: u64) -> Id {
        Id(id)
    }
}

/// Why the parser refused a stream.
#[derive(Debug, Clone, PartialEq, Eq)]
pub struct Refusal {
    /// 1 to 5.
    pub number: u64,
    pub line: u64,
    /// The number of what the parser says it expected; 0 if it does not say.
    pub expected: u64,
    /// For number 1, the token met: the parser does not tell its index, only its `Debug` text.
    pub unexpected: Option<String>,
}

/// Parses a well-formed stream (four words a record, the last record and no other of kind 59) into
/// the words of its flat tree.
pub fn parse(stream: &[u64]) -> Result<Vec<u64>, Refusal> {
    parse_chunk(source::Words::new(stream), Ids)
        .map(|chunk| flatten::flatten(&chunk))
        .map_err(refusal)
}

/// Parses without laying the tree flat, for measuring the parser alone.
pub fn parses(stream: &[u64]) -> bool {
    parse_chunk(source::Words::new(stream), Ids).is_ok()
}

/// The text by which the parser names an unexpected token of this kind and payload.
pub fn debug_text(kind: u64, payload: u64) -> String {
    format!("{:?}", lexer::token(kind, payload, &mut Ids))
}

/// Runs `work` on a thread whose stack holds the parser at its deepest.
pub fn with_deep_stack<T: Send>(work: impl FnOnce() -> T + Send) -> T {
    thread::scope(|scope| {
        thread::Builder::new()
            .stack_size(256 << 20)
            .spawn_scoped(scope, work)
            .expect("a thread")
            .join()
            .unwrap_or_else(|panic| std::panic::resume_unwind(panic))
    })
}

fn refusal(error: ParseError) -> Refusal {
    let (number, expected, unexpected) = match error.kind {
        ParseErrorKind::Unexpected {
            unexpected,
            expected,
        } => (1, expected_number(&expected), Some(unexpected)),
        ParseErrorKind::EndOfStream { expected } => {
            (2, expected.map_or(0, |text| expected_number(&text)), None)
        }
        ParseErrorKind::AssignToExpression => (3, 0, None),
        ParseErrorKind::ExpressionNotStatement => (4, 0, None),
        ParseErrorKind::RecursionLimit => (5, 0, None),
        ParseErrorKind::LexError(never) => match never {},
    };
    Refusal {
        number,
        line: error.line_number.0,
        expected,
        unexpected,
    }
}

/// The number for the parser's words. It has three more texts ("expression suffix", "field or
/// suffix", "string"), which no stream brings out; meeting one would be news, so it stops the run.
fn expected_number(text: &str) -> u64 {
    match text {
        "name" => 60,
        "grouped expression or name" => 61,
        "function arguments" => 62,
        "parameter name or '...'" => 63,
        "'=' or 'in'" => 64,
        token => match PLAIN_NAMES.iter().position(|name| *name == token) {
            Some(kind) => kind as u64 + 1,
            None => panic!("the parser expected {text:?}, which has no number"),
        },
    }
}
