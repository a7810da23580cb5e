//! Chains of binary operators, where the two rankings may part: quarrelling and quiet ones, alone,
//! and one within another.

use array_reader::kind::*;

use super::grammar::{Taste, Writer, BINARY_OPERATORS};
use crate::{random::Random, token::Token};

/// Operators in the proportions that make long pieces with a `~=` and often no quarrel.
const TASTES: [Taste; 4] = [
    // Everything, with `~=` as common as the rest together.
    Taste {
        more_operators: 70,
        unary: 10,
        operators: &[
            NOT_EQUAL,
            NOT_EQUAL,
            NOT_EQUAL,
            NOT_EQUAL,
            NOT_EQUAL,
            NOT_EQUAL,
            NOT_EQUAL,
            NOT_EQUAL,
            OR,
            AND,
            EQUAL,
            LESS_THAN,
            LESS_EQUAL,
            GREATER_THAN,
            GREATER_EQUAL,
            BIT_OR,
            BIT_NOT_XOR,
            BIT_AND,
            SHIFT_LEFT,
            SHIFT_RIGHT,
            CONCAT,
            ADD,
            MINUS,
            MUL,
            DIV,
            I_DIV,
            MOD,
            POW,
        ],
        ..Taste::PLAIN
    },
    // What may stand about a `~=` without a quarrel, if in the right place.
    Taste {
        more_operators: 75,
        unary: 15,
        operators: &[NOT_EQUAL, NOT_EQUAL, MUL, POW, DIV, AND, OR, ADD, EQUAL],
        ..Taste::PLAIN
    },
    // Quiet under most orders.
    Taste {
        more_operators: 80,
        unary: 20,
        operators: &[NOT_EQUAL, NOT_EQUAL, MUL, I_DIV, MOD, POW, AND, OR],
        ..Taste::PLAIN
    },
    // The middle ranks, which a `~=` of rank 10 goes through and one of rank 3 does not.
    Taste {
        more_operators: 65,
        unary: 5,
        operators: &[
            NOT_EQUAL,
            BIT_OR,
            BIT_NOT_XOR,
            BIT_AND,
            SHIFT_LEFT,
            SHIFT_RIGHT,
            CONCAT,
            AND,
        ],
        ..Taste::PLAIN
    },
];

/// A few statements with chains in them.
pub fn script(random: &mut Random) -> Vec<Token> {
    let taste = random.pick(&TASTES);
    let depth = random.pick(&[0, 0, 0, 1, 1, 2]);
    let statements = random.between(1, 2);
    let mut writer = Writer::new(random, taste);
    for _ in 1..statements {
        writer.statement(depth + 1);
    }
    writer.put(RETURN);
    writer.expression(depth);
    writer.tokens
}

/// `return a OP a ...` with one, two or three operators: chain `number` of all of these.
pub fn short_chain(number: u64) -> Option<Vec<Token>> {
    let operators = BINARY_OPERATORS.len() as u64;
    let mut rest = number;
    let mut length = 1;
    while rest >= operators.pow(length) {
        rest -= operators.pow(length);
        length += 1;
    }
    if length > 3 {
        return None;
    }
    let name = Token {
        kind: NAME,
        payload: 1,
    };
    let mut tokens = vec![Token::plain(RETURN), name];
    for _ in 0..length {
        let operator = BINARY_OPERATORS[(rest % operators) as usize];
        tokens.extend([Token::plain(operator), name]);
        rest /= operators;
    }
    Some(tokens)
}
