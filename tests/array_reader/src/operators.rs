//! Operators and their ranks, one table lookup over the token kind.

use crate::kind::*;

/// The limit an expression starts under: below every operator.
pub(crate) const LOWEST: u8 = 0;

/// The limit the operand of a unary operator is read under.
pub(crate) const UNARY: u8 = 12;

/// What a token kind is worth as a binary operator.
#[derive(Clone, Copy)]
pub(crate) struct Binary {
    /// Taken only while this is above the limit. A kind that is no binary operator has 0, which is
    /// above no limit.
    pub left: u8,
    /// The limit its right operand is read under.
    pub right: u8,
    /// The value of its tail record.
    pub code: u8,
}

/// A choice of ranks.
pub(crate) trait Ranking {
    fn binary(kind: u64) -> Binary;
}

/// The ranks of piccolo 0.3.3.
pub(crate) struct Crate;

/// The ranks of the Lua 5.4 manual.
pub(crate) struct Manual;

impl Ranking for Crate {
    #[inline(always)]
    fn binary(kind: u64) -> Binary {
        static TABLE: [Binary; 64] = table(10);
        TABLE[(kind & 63) as usize]
    }
}

impl Ranking for Manual {
    #[inline(always)]
    fn binary(kind: u64) -> Binary {
        static TABLE: [Binary; 64] = table(3);
        TABLE[(kind & 63) as usize]
    }
}

/// The two rankings differ in the rank of `~=` alone.
const fn table(not_equal: u8) -> [Binary; 64] {
    let none = Binary {
        left: 0,
        right: 0,
        code: 0,
    };
    let mut table = [none; 64];
    // In the order of the codes.
    let operators = [
        (ADD, 10, 10),
        (MINUS, 10, 10),
        (MUL, 11, 11),
        (MOD, 11, 11),
        (POW, 14, 13),
        (DIV, 11, 11),
        (I_DIV, 11, 11),
        (BIT_AND, 6, 6),
        (BIT_OR, 4, 4),
        (BIT_NOT_XOR, 5, 5),
        (SHIFT_LEFT, 7, 7),
        (SHIFT_RIGHT, 7, 7),
        (CONCAT, 9, 8),
        (NOT_EQUAL, not_equal, not_equal),
        (EQUAL, 3, 3),
        (LESS_THAN, 3, 3),
        (LESS_EQUAL, 3, 3),
        (GREATER_THAN, 3, 3),
        (GREATER_EQUAL, 3, 3),
        (AND, 2, 2),
        (OR, 1, 1),
    ];
    let mut code = 0;
    while code < operators.len() {
        let (kind, left, right) = operators[code];
        table[kind as usize] = Binary {
            left,
            right,
            code: code as u8,
        };
        code += 1;
    }
    table
}

/// The code of a unary operator, the value of its record.
#[inline(always)]
pub(crate) fn unary(kind: u64) -> Option<u64> {
    match kind {
        NOT => Some(0),
        MINUS => Some(1),
        BIT_NOT_XOR => Some(2),
        LEN => Some(3),
        _ => None,
    }
}
