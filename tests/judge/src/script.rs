//! Scripts written as text, for the lists in this crate: enough of Lua's lexer to say them shortly.
//!
//! A name is letters and then, if wanted, digits: the digits are its id, or else its first letter
//! is (`a` is 1, `z` is 26). A string `'s'` has an id in the same way.

use array_reader::kind::*;

use crate::token::Token;

/// The tokens of a text, each with its line.
pub fn tokens_with_lines(text: &str) -> Vec<(Token, u64)> {
    let mut tokens = Vec::new();
    let mut line = 1;
    let mut rest = text;
    while let Some(first) = rest.chars().next() {
        if first == '\n' {
            line += 1;
        }
        if first.is_whitespace() {
            rest = &rest[1..];
            continue;
        }
        let (token, length) = first_token(rest);
        tokens.push((token, line));
        rest = &rest[length..];
    }
    tokens
}

pub fn tokens(text: &str) -> Vec<Token> {
    let with_lines = tokens_with_lines(text);
    with_lines.into_iter().map(|(token, _)| token).collect()
}

/// The whole stream of a text: every token ends on its own line, the end is on the last line.
pub fn stream(text: &str) -> Vec<u64> {
    let end_line = 1 + text.matches('\n').count() as u64;
    let mut words = Vec::new();
    for (token, line) in tokens_with_lines(text) {
        words.extend([token.kind, token.payload, line, line]);
    }
    words.extend([STREAM_END, 0, end_line, end_line]);
    words
}

/// The token a text starts with, and its length in bytes.
fn first_token(text: &str) -> (Token, usize) {
    let first = text.as_bytes()[0];
    if first.is_ascii_alphabetic() {
        let word = prefix(text, |c| c.is_ascii_alphanumeric());
        let token = match KEYWORDS.iter().find(|(keyword, _)| *keyword == word) {
            Some((_, kind)) => Token::plain(*kind),
            None => Token {
                kind: NAME,
                payload: id(word),
            },
        };
        return (token, word.len());
    }
    if first.is_ascii_digit() {
        let number = prefix(text, |c| c.is_ascii_digit() || c == '.');
        let token = if number.contains('.') {
            let float: f64 = number.parse().expect("a float");
            Token {
                kind: FLOAT,
                payload: float.to_bits(),
            }
        } else {
            Token {
                kind: INTEGER,
                payload: number.parse().expect("an integer"),
            }
        };
        return (token, number.len());
    }
    if first == b'\'' {
        let string = prefix(&text[1..], |c| c != '\'');
        let token = Token {
            kind: STRING,
            payload: id(string),
        };
        return (token, string.len() + 2);
    }
    match SIGNS.iter().find(|(sign, _)| text.starts_with(sign)) {
        Some((sign, kind)) => (Token::plain(*kind), sign.len()),
        None => panic!("no token starts {text:?}"),
    }
}

fn prefix(text: &str, belongs: impl Fn(char) -> bool) -> &str {
    &text[..text.find(|c| !belongs(c)).unwrap_or(text.len())]
}

fn id(name: &str) -> u64 {
    let digits = name.trim_start_matches(|c: char| c.is_ascii_alphabetic());
    match digits.parse() {
        Ok(id) => id,
        Err(_) => u64::from(name.as_bytes()[0] - b'a' + 1),
    }
}

const KEYWORDS: &[(&str, u64)] = &[
    ("break", BREAK),
    ("do", DO),
    ("else", ELSE),
    ("elseif", ELSE_IF),
    ("end", END),
    ("false", FALSE),
    ("for", FOR),
    ("function", FUNCTION),
    ("goto", GOTO),
    ("if", IF),
    ("in", IN),
    ("local", LOCAL),
    ("nil", NIL),
    ("not", NOT),
    ("and", AND),
    ("or", OR),
    ("repeat", REPEAT),
    ("return", RETURN),
    ("then", THEN),
    ("true", TRUE),
    ("until", UNTIL),
    ("while", WHILE),
];

/// A sign stands before those that begin it.
const SIGNS: &[(&str, u64)] = &[
    ("...", DOTS),
    ("..", CONCAT),
    (".", DOT),
    ("//", I_DIV),
    ("/", DIV),
    ("<<", SHIFT_LEFT),
    ("<=", LESS_EQUAL),
    ("<", LESS_THAN),
    (">>", SHIFT_RIGHT),
    (">=", GREATER_EQUAL),
    (">", GREATER_THAN),
    ("==", EQUAL),
    ("=", ASSIGN),
    ("~=", NOT_EQUAL),
    ("~", BIT_NOT_XOR),
    ("::", DOUBLE_COLON),
    (":", COLON),
    ("-", MINUS),
    ("+", ADD),
    ("*", MUL),
    ("^", POW),
    ("%", MOD),
    ("#", LEN),
    ("&", BIT_AND),
    ("|", BIT_OR),
    (";", SEMI_COLON),
    (",", COMMA),
    ("(", LEFT_PAREN),
    (")", RIGHT_PAREN),
    ("[", LEFT_BRACKET),
    ("]", RIGHT_BRACKET),
    ("{", LEFT_BRACE),
    ("}", RIGHT_BRACE),
];
