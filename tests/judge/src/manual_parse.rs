//! Piccolo's parser as judge of the manual reading.
//!
//! The rankings differ in `~=` alone, and the parser ranks `==` as the manual ranks both. So given a
//! stream with `==` for every `~=` it makes the manual's tree, but for the operator's name.

use array_reader::{
    kind::{EQUAL, NOT_EQUAL},
    tag,
};
use piccolo::Refusal;

use crate::operator_walk::operator_records;

/// The values of the tail records of the two operators.
const EQUAL_CODE: u64 = 14;
const NOT_EQUAL_CODE: u64 = 13;

pub struct ManualParse {
    /// The stream as the parser was given it.
    pub given: Vec<u64>,
    /// The tree has its `~=` again; a refusal speaks of the stream that was given.
    pub parsed: Result<Vec<u64>, Refusal>,
}

impl ManualParse {
    pub fn new(stream: &[u64]) -> Self {
        let given = with_equal_for_not_equal(stream);
        let parsed = piccolo::parse(&given).map(|tree| with_not_equal_put_back(stream, tree));
        ManualParse { given, parsed }
    }
}

fn with_equal_for_not_equal(stream: &[u64]) -> Vec<u64> {
    let mut given = stream.to_vec();
    for record in given.chunks_exact_mut(4) {
        if record[0] == NOT_EQUAL {
            record[0] = EQUAL;
        }
    }
    given
}

fn with_not_equal_put_back(stream: &[u64], mut tree: Vec<u64>) -> Vec<u64> {
    for pair in operator_records(stream, &tree) {
        if stream[pair.token * 4] == NOT_EQUAL {
            let record = &mut tree[pair.record * 4..][..4];
            assert_eq!(record[..2], [tag::TAIL, EQUAL_CODE]);
            record[1] = NOT_EQUAL_CODE;
        }
    }
    tree
}
