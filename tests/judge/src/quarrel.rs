//! The quarrel rule, word for word: the chains are laid out whole, cut, and searched.

use array_reader::{kind::*, tag};

use crate::operator_walk::operator_records;

/// A binary operator of a chain.
#[derive(Debug, Clone, Copy)]
struct Operator {
    kind: u64,
    /// The index of its token.
    index: usize,
}

type Chain = Vec<Operator>;

/// The index of the first `~=` that quarrels in a stream the crate reading accepts with this tree.
pub fn first_quarrel(stream: &[u64], crate_tree: &[u64]) -> Option<usize> {
    if !has_not_equal(stream) {
        return None;
    }
    let chains = chains(stream, crate_tree);
    let pieces = chains
        .iter()
        .flat_map(|chain| chain.split(|operator| matches!(operator.kind, AND | OR)));
    pieces.filter_map(first_in_piece).min()
}

pub fn has_not_equal(stream: &[u64]) -> bool {
    stream.chunks_exact(4).any(|record| record[0] == NOT_EQUAL)
}

fn first_in_piece(piece: &[Operator]) -> Option<usize> {
    let quarrels = |place: &usize| {
        piece[*place].kind == NOT_EQUAL
            && (piece[..*place].iter().any(|left| loosens(left.kind))
                || piece[*place + 1..]
                    .iter()
                    .take_while(|right| !is_comparison(right.kind))
                    .any(|right| binds_before_comparison(right.kind)))
    };
    let place = (0..piece.len()).find(quarrels)?;
    Some(piece[place].index)
}

/// `== < <= > >= | ~ & << >> ..`
fn loosens(kind: u64) -> bool {
    matches!(
        kind,
        EQUAL
            | LESS_THAN
            | LESS_EQUAL
            | GREATER_THAN
            | GREATER_EQUAL
            | BIT_OR
            | BIT_NOT_XOR
            | BIT_AND
            | SHIFT_LEFT
            | SHIFT_RIGHT
            | CONCAT
    )
}

/// `| ~ & << >> .. + -`
fn binds_before_comparison(kind: u64) -> bool {
    matches!(
        kind,
        BIT_OR | BIT_NOT_XOR | BIT_AND | SHIFT_LEFT | SHIFT_RIGHT | CONCAT | ADD | MINUS
    )
}

/// `== < <= > >= ~=`
fn is_comparison(kind: u64) -> bool {
    matches!(
        kind,
        EQUAL | LESS_THAN | LESS_EQUAL | GREATER_THAN | GREATER_EQUAL | NOT_EQUAL
    )
}

/// The chains of a stream, by its tree. An expression record that is the operand of an operator
/// goes on with the chain of that operator; every other one starts its own.
fn chains(stream: &[u64], tree: &[u64]) -> Vec<Chain> {
    let mut walk = Walk {
        stream,
        tree,
        tokens: operator_records(stream, tree)
            .into_iter()
            .map(|pair| pair.token)
            .collect::<Vec<_>>()
            .into_iter(),
        chains: Vec::new(),
    };
    walk.record(0, None);
    walk.chains
}

struct Walk<'a> {
    stream: &'a [u64],
    tree: &'a [u64],
    /// The tokens of the operator records not yet come to.
    tokens: std::vec::IntoIter<usize>,
    chains: Vec<Chain>,
}

impl Walk<'_> {
    /// Walks a record and all below it; gives the record after those. `chain` is the chain that an
    /// expression record here goes on with.
    fn record(&mut self, at: usize, chain: Option<usize>) -> usize {
        let chain_below = match self.tree[at * 4] {
            tag::EXPRESSION => {
                let chain = chain.unwrap_or_else(|| {
                    self.chains.push(Chain::new());
                    self.chains.len() - 1
                });
                Some(chain)
            }
            tag::UNARY => {
                self.tokens.next();
                chain
            }
            tag::TAIL => {
                let index = self.tokens.next().expect("an operator token a record");
                let chain = chain.expect("tails stand in expressions");
                let kind = self.stream[index * 4];
                self.chains[chain].push(Operator { kind, index });
                Some(chain)
            }
            // Whatever holds an expression and is no operator is a bracket of some sort.
            _ => None,
        };
        let end = at + self.tree[at * 4 + 3] as usize;
        let mut child = at + 1;
        while child < end {
            child = self.record(child, chain_below);
        }
        end
    }
}
