//! A lexer that reads no text: it replays the records of a token stream, four little-endian words
//! each, and tells the lines the records tell.

use std::io::Read;

use super::StringInterner;

#[derive(Debug, Clone, Copy, PartialEq, Eq)]
pub struct LineNumber(pub u64);

/// Streams are checked before they get here, so nothing can go wrong in reading one.
#[derive(Debug)]
pub enum LexError {}

/// The kind of the record that ends a stream.
const END: u64 = 59;

// One list gives the tokens, their order (which is their kind) and their names.
macro_rules! tokens {
    ($($plain:ident)*) => {
        #[derive(Debug, Clone, PartialEq)]
        pub enum Token<S> {
            $($plain,)*
            Integer(i64),
            Float(f64),
            String(S),
            Name(S),
        }

        /// The names of the tokens without a payload; a token's place here is its kind.
        pub const PLAIN_NAMES: &[&str] = &[$(stringify!($plain)),*];

        fn plain_token<S>(kind: u64) -> Option<Token<S>> {
            #[allow(clippy::upper_case_acronyms)]
            #[repr(u64)]
            enum Kind { $($plain),* }
            $(
                if kind == Kind::$plain as u64 {
                    return Some(Token::$plain);
                }
            )*
            None
        }
    };
}

tokens! {
    Break Do Else ElseIf End False For Function Goto If In Local Nil Not And Or Repeat Return Then
    True Until While
    Minus Add Mul Div IDiv Pow Mod Len BitNotXor BitAnd BitOr ShiftRight ShiftLeft Concat Dots
    Assign LessThan LessEqual GreaterThan GreaterEqual Equal NotEqual Dot SemiColon Colon
    DoubleColon Comma LeftParen RightParen LeftBracket RightBracket LeftBrace RightBrace
}

/// The token of a record, by its kind and payload.
pub fn token<S: StringInterner>(kind: u64, payload: u64, interner: &mut S) -> Token<S::String> {
    match kind {
        55 => Token::Integer(payload as i64),
        56 => Token::Float(f64::from_bits(payload)),
        57 => Token::String(interner.intern(payload)),
        58 => Token::Name(interner.intern(payload)),
        _ => plain_token(kind).expect("the kind of a token"),
    }
}

pub struct Lexer<R, S> {
    source: R,
    interner: S,
    /// The record after those replayed, once `skip_whitespace` has fetched it.
    next: Option<[u64; 4]>,
    line: u64,
}

impl<R: Read, S: StringInterner> Lexer<R, S> {
    pub fn new(source: R, interner: S) -> Self {
        Lexer {
            source,
            interner,
            next: None,
            line: 0,
        }
    }

    pub fn line_number(&self) -> LineNumber {
        LineNumber(self.line)
    }

    /// Goes up to the next token, or to the end: the line is the one the next record stands on.
    pub fn skip_whitespace(&mut self) -> Result<(), LexError> {
        let [_, _, line, _] = self.next_record();
        self.line = line;
        Ok(())
    }

    /// Takes the next token; the line is then the one just after it. The end can be read again and
    /// again.
    pub fn read_token(&mut self) -> Result<Option<Token<S::String>>, LexError> {
        let [kind, payload, _, after_line] = self.next_record();
        self.line = after_line;
        if kind == END {
            return Ok(None);
        }
        self.next = None;
        Ok(Some(token(kind, payload, &mut self.interner)))
    }

    fn next_record(&mut self) -> [u64; 4] {
        let source = &mut self.source;
        *self.next.get_or_insert_with(|| {
            let mut bytes = [0; 32];
            source
                .read_exact(&mut bytes)
                .expect("a stream ends with its end record");
            let word = |at: usize| u64::from_le_bytes(bytes[at..at + 8].try_into().unwrap());
            [word(0), word(8), word(16), word(24)]
        })
    }
}
