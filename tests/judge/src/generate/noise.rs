//! Tokens without sense, or with hardly any.

use array_reader::kind::*;

use super::damage::any_token;
use crate::{dress, random::Random, token::Token};

pub fn noise(random: &mut Random) -> Vec<Token> {
    let length = random.below(12);
    if random.percent(40) {
        return (0..length).map(|_| any_token(random)).collect();
    }
    // Openings of productions, and what might come after them.
    let mut tokens = Vec::new();
    for _ in 0..length {
        for kind in random.pick(PHRASES) {
            tokens.push(Token {
                kind: *kind,
                payload: dress::payload(*kind, random),
            });
        }
    }
    tokens
}

const PHRASES: &[&[u64]] = &[
    &[FOR, NAME],
    &[FOR, NAME, ASSIGN],
    &[FOR, NAME, COMMA, NAME],
    &[IN],
    &[DO],
    &[END],
    &[IF, TRUE],
    &[THEN],
    &[ELSE],
    &[ELSE_IF, NAME],
    &[WHILE, NAME],
    &[REPEAT],
    &[UNTIL],
    &[UNTIL, NIL],
    &[FUNCTION],
    &[FUNCTION, NAME],
    &[FUNCTION, NAME, LEFT_PAREN],
    &[LOCAL],
    &[LOCAL, FUNCTION],
    &[LOCAL, FUNCTION, NAME],
    &[LOCAL, NAME],
    &[RETURN],
    &[GOTO],
    &[DOUBLE_COLON, NAME],
    &[DOUBLE_COLON],
    &[NAME],
    &[NAME, ASSIGN],
    &[NAME, LEFT_PAREN],
    &[NAME, LEFT_BRACKET],
    &[NAME, COLON, NAME],
    &[NAME, COLON],
    &[NAME, DOT],
    &[NAME, STRING],
    &[NAME, LEFT_PAREN, RIGHT_PAREN],
    &[COMMA],
    &[COMMA, NAME],
    &[ASSIGN],
    &[SEMI_COLON],
    &[LEFT_PAREN],
    &[RIGHT_PAREN],
    &[LEFT_BRACKET],
    &[RIGHT_BRACKET],
    &[LEFT_BRACE],
    &[LEFT_BRACE, NAME, ASSIGN],
    &[LEFT_BRACE, LEFT_BRACKET, NAME],
    &[RIGHT_BRACE],
    &[DOTS],
    &[INTEGER],
    &[STRING],
    &[FLOAT],
    &[MINUS],
    &[NOT_EQUAL],
    &[ADD],
    &[BREAK],
];
