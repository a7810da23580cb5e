//! The quarrel rule on every chain of up to five operators, one operator for each rank: piccolo's
//! parser makes the trees, and the rule must name a `~=` just where they differ.

use array_reader::kind::*;
use judge::{examine, random::Random, tally::Tally};

const ONE_OF_EACH_RANK: [u64; 11] = [
    OR,
    GREATER_EQUAL,
    NOT_EQUAL,
    BIT_OR,
    BIT_NOT_XOR,
    BIT_AND,
    SHIFT_LEFT,
    CONCAT,
    MINUS,
    MUL,
    POW,
];

const LONGEST: usize = 5;

#[test]
fn every_chain_passes_examination() {
    piccolo::with_deep_stack(|| extend(&mut vec![RETURN, NAME], LONGEST));
}

/// Examines every chain that goes on from this one with up to `more` operators.
fn extend(kinds: &mut Vec<u64>, more: usize) {
    if kinds.contains(&NOT_EQUAL) {
        examine_chain(kinds);
    }
    if more == 0 {
        return;
    }
    for operator in ONE_OF_EACH_RANK {
        kinds.extend([operator, NAME]);
        extend(kinds, more - 1);
        kinds.truncate(kinds.len() - 2);
    }
}

fn examine_chain(kinds: &[u64]) {
    let tokens = kinds.iter().flat_map(|kind| [*kind, 0, 1, 1]);
    let stream: Vec<u64> = tokens.chain([STREAM_END, 0, 1, 1]).collect();
    let examined = examine::examine(&stream, &mut Random::new(1), &mut Tally::default());
    if let Err(difference) = examined {
        panic!("{kinds:?}: {difference}");
    }
}
