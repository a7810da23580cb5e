//! Whether a stream is well formed.

use crate::kind;

const WORDS_A_RECORD: usize = 4;
const MOST_TOKENS: usize = 1_048_576;
const MOST_WORDS: usize = WORDS_A_RECORD * (MOST_TOKENS + 1);

/// Lines and ids go no higher.
const TOP: u64 = u32::MAX as u64;

/// The index of the first bad record (0 for a bad length), if the stream is malformed.
pub(crate) fn first_fault(stream: &[u64]) -> Option<usize> {
    if stream.is_empty() || stream.len() % WORDS_A_RECORD != 0 || stream.len() > MOST_WORDS {
        return Some(0);
    }
    let (tokens, end) = stream.split_at(stream.len() - WORDS_A_RECORD);
    let bad_token = tokens
        .chunks_exact(WORDS_A_RECORD)
        .position(|token| !is_token(token));
    bad_token.or((!is_end(end)).then_some(tokens.len() / WORDS_A_RECORD))
}

#[inline(always)]
fn is_token(record: &[u64]) -> bool {
    let (kind, payload, line, after_line) = (record[0], record[1], record[2], record[3]);
    let greatest = GREATEST_PAYLOAD[(kind & 63) as usize];
    (kind < kind::STREAM_END) & (payload <= greatest) & ((line | after_line) <= TOP)
}

/// The greatest payload of each kind; a lookup, since kinds follow no pattern a branch could learn.
static GREATEST_PAYLOAD: [u64; 64] = {
    let mut greatest = [0; 64];
    greatest[kind::INTEGER as usize] = u64::MAX;
    greatest[kind::FLOAT as usize] = u64::MAX;
    greatest[kind::STRING as usize] = TOP;
    greatest[kind::NAME as usize] = TOP;
    greatest
};

fn is_end(record: &[u64]) -> bool {
    let (kind, payload, line, after_line) = (record[0], record[1], record[2], record[3]);
    kind == kind::STREAM_END && payload == 0 && line <= TOP && line == after_line
}
