//! Finds, for the operator records of a flat tree, the tokens they were made from.
//!
//! A tree tells no token indices. But parents stand before their children and children in source
//! order, so the unary and tail records, taken as they stand, come in the order of their tokens.

use array_reader::{kind::*, tag};

/// A unary or tail record and its token.
pub struct OperatorRecord {
    /// The index of the record.
    pub record: usize,
    /// The index of the token.
    pub token: usize,
}

/// Every operator record of the tree read from the stream, in order.
pub fn operator_records(stream: &[u64], tree: &[u64]) -> Vec<OperatorRecord> {
    let mut tokens = (0..stream.len() / 4).filter(|token| is_operator(stream[token * 4]));
    let records: Vec<OperatorRecord> = (0..tree.len() / 4)
        .filter(|record| matches!(tree[record * 4], tag::UNARY | tag::TAIL))
        .map(|record| OperatorRecord {
            record,
            token: tokens.next().expect("a token for each operator record"),
        })
        .collect();
    assert_eq!(tokens.next(), None, "an operator record for each token");
    records
}

pub fn is_operator(kind: u64) -> bool {
    is_unary(kind) || is_binary(kind)
}

pub fn is_unary(kind: u64) -> bool {
    matches!(kind, NOT | MINUS | BIT_NOT_XOR | LEN)
}

pub fn is_binary(kind: u64) -> bool {
    matches!(kind, AND | OR | MINUS..=MOD | BIT_NOT_XOR..=CONCAT | LESS_THAN..=NOT_EQUAL)
}
