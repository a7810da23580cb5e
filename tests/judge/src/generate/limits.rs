//! Streams at the greatest length and one token past it. They are large, so a run has these few.

use array_reader::kind::*;

const MOST_TOKENS: usize = 1_048_576;

pub fn streams() -> Vec<Vec<u64>> {
    vec![
        repeated(SEMI_COLON, MOST_TOKENS),
        repeated(BREAK, MOST_TOKENS),
        repeated(LEFT_PAREN, MOST_TOKENS),
        repeated(SEMI_COLON, MOST_TOKENS + 1),
        repeated(STREAM_END, MOST_TOKENS),
        repeated(STREAM_END, MOST_TOKENS + 1),
    ]
}

fn repeated(kind: u64, tokens: usize) -> Vec<u64> {
    let mut words = [kind, 0, 1, 1].repeat(tokens);
    words.extend([STREAM_END, 0, 2, 2]);
    words
}
