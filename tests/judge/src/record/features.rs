//! What a recorded stream can show. A list is chosen to show everything, with short streams.

use array_reader::{kind::*, tag, Answer};

use crate::{malformed, operator_walk::operator_records, reading::Reading};

/// A feature, and how often the list should show it.
#[derive(Debug, Clone, Copy, PartialEq, Eq, Hash)]
pub enum Feature {
    /// An answer of a reading, and what it expected.
    Answer(Reading, u64, u64),
    /// A token found where something else was expected.
    Found { expected: u64, kind: u64 },
    /// The last token of a stream that ended too early, or went on too long.
    Ended { expected: u64, last: u64 },
    /// The last token of a stream with a wrong target or a lone expression.
    Lone { number: u64, last: u64 },
    /// The fault of a malformed stream, and how far in.
    Fault(malformed::Reason, usize),
    /// A record's tag and its value, up to a few.
    Record { tag: u64, value: u64 },
    /// A record in another.
    Child { parent: u64, child: u64 },
    /// Two operators one after the other, one of them `~=`, and whether the stream has a quarrel.
    Neighbours { kinds: [u64; 2], quarrel: bool },
    /// Two operators one after the other, by rank.
    Ranks([u64; 2]),
    /// A line that is told, and whether it lies above the end line.
    Line {
        number: u64,
        expected: u64,
        above: bool,
    },
}

impl Feature {
    pub fn wanted(&self) -> usize {
        match self {
            Feature::Fault(..) => 6,
            Feature::Answer(..) => 4,
            Feature::Line { .. } => 2,
            _ => 1,
        }
    }
}

/// The features of a stream, by its answers (crate, manual, agreed) and the crate reading's tree.
pub fn features(stream: &[u64], answers: &[Answer; 3], tree: &[u64]) -> Vec<Feature> {
    let mut features = Vec::new();
    for (reading, answer) in Reading::ALL.into_iter().zip(answers) {
        features.push(Feature::Answer(reading, answer.number, answer.expected));
    }
    let [of_crate, _, agreed] = answers;
    let kind_at = |token: usize| stream.get(token * 4).copied().unwrap_or(STREAM_END);
    let tokens = stream.len() / 4 - 1;
    let last = kind_at(tokens.saturating_sub(1));
    let (number, expected) = (of_crate.number, of_crate.expected);
    match number {
        0 => tree_features(stream, tree, agreed.number == 8, &mut features),
        1 => features.push(Feature::Found {
            expected,
            kind: kind_at(of_crate.found as usize),
        }),
        2 => features.push(Feature::Ended { expected, last }),
        3 | 4 => features.push(Feature::Lone { number, last }),
        6 => {
            let (index, reason) = malformed::first_fault(stream).expect("a malformed stream");
            features.push(Feature::Fault(reason, index.min(2) as usize));
        }
        _ => {}
    }
    if matches!(number, 1..=5) {
        let end_line = stream[tokens * 4 + 2];
        features.push(Feature::Line {
            number,
            expected,
            above: of_crate.line > end_line,
        });
    }
    features
}

fn tree_features(stream: &[u64], tree: &[u64], quarrel: bool, features: &mut Vec<Feature>) {
    let mut open: Vec<(u64, usize)> = Vec::new();
    for (index, record) in tree.chunks_exact(4).enumerate() {
        let (tag, value, size) = (record[0], record[1], record[3] as usize);
        features.push(Feature::Record {
            tag,
            value: if value_is_payload(tag) {
                0
            } else {
                value.min(3)
            },
        });
        while open.last().is_some_and(|(_, end)| *end <= index) {
            open.pop();
        }
        if let Some((parent, _)) = open.last() {
            features.push(Feature::Child {
                parent: *parent,
                child: tag,
            });
        }
        open.push((tag, index + size));
    }

    let operators: Vec<u64> = operator_records(stream, tree)
        .into_iter()
        .filter(|pair| tree[pair.record * 4] == tag::TAIL)
        .map(|pair| stream[pair.token * 4])
        .collect();
    for pair in operators.windows(2) {
        let kinds = [pair[0], pair[1]];
        if kinds.contains(&NOT_EQUAL) {
            features.push(Feature::Neighbours { kinds, quarrel });
        }
        features.push(Feature::Ranks(kinds.map(rank)));
    }
}

/// Whether the value of a record is an id or a number, of which there are too many to show.
fn value_is_payload(tag: u64) -> bool {
    matches!(
        tag,
        tag::NUMERIC_FOR | tag::LOCAL_FUNCTION | tag::LABEL | tag::GOTO | tag::INTEGER
            ..=tag::STRING | tag::NAME | tag::FIELD | tag::METHOD_CALL | tag::NAMED_FIELD
    )
}

fn rank(kind: u64) -> u64 {
    match kind {
        OR => 1,
        AND => 2,
        EQUAL | LESS_THAN | LESS_EQUAL | GREATER_THAN | GREATER_EQUAL => 3,
        BIT_OR => 4,
        BIT_NOT_XOR => 5,
        BIT_AND => 6,
        SHIFT_LEFT | SHIFT_RIGHT => 7,
        CONCAT => 9,
        MUL | DIV | I_DIV | MOD => 11,
        POW => 14,
        _ => 10,
    }
}
