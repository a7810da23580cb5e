//! Gives tokens their lines, some of them other payloads, and the stream its end record.

use array_reader::kind::*;

use crate::{random::Random, token::Token};

const TOP: u64 = u32::MAX as u64;

/// How the lines of a stream go.
#[derive(Clone, Copy)]
enum Lines {
    AllOne,
    /// As from text: never back, and only strings go on over lines.
    AsFromText,
    /// Every line and after-line its own, near each other.
    Jumping,
    /// Every line and after-line its own, up to the greatest.
    Anywhere,
}

pub fn stream(tokens: &[Token], random: &mut Random) -> Vec<u64> {
    let lines = match random.below(10) {
        0 => Lines::AllOne,
        1..=3 => Lines::AsFromText,
        4..=8 => Lines::Jumping,
        _ => Lines::Anywhere,
    };
    let mut words = Vec::with_capacity(tokens.len() * 4 + 4);
    let mut line = 1;
    for token in tokens {
        let (own, after) = pair(lines, line, token.kind, random);
        words.extend([token.kind, token.payload, own, after]);
        line = after;
    }
    let (end_line, _) = pair(lines, line, STREAM_END, random);
    words.extend([STREAM_END, 0, end_line, end_line]);
    words
}

/// The line and after-line of a token that comes after `line`.
fn pair(lines: Lines, line: u64, kind: u64, random: &mut Random) -> (u64, u64) {
    match lines {
        Lines::AllOne => (1, 1),
        Lines::AsFromText => {
            let own = line + random.pick(&[0, 0, 0, 1, 1, 2]);
            let further = if kind == STRING { random.below(3) } else { 0 };
            (own, own + further as u64)
        }
        Lines::Jumping => (random.below(1000) as u64, random.below(1000) as u64),
        Lines::Anywhere => (any_line(random), any_line(random)),
    }
}

fn any_line(random: &mut Random) -> u64 {
    match random.below(8) {
        0 => 0,
        1 => TOP,
        _ => random.word() & TOP,
    }
}

/// A payload for a kind: mostly small, now and then one at or near the end of its range.
pub fn payload(kind: u64, random: &mut Random) -> u64 {
    let small = random.below(30) as u64;
    let word = random.word();
    let pick = random.below(10);
    match kind {
        INTEGER => match pick {
            0 => word,
            1 => random.pick(&[u64::MAX, i64::MAX as u64, i64::MIN as u64, TOP + 1]),
            _ => small,
        },
        FLOAT => match pick {
            0..=2 => word,
            3 => random.pick(&FLOATS).to_bits(),
            // Not-a-numbers keep their bits.
            4 => 0x7ff0_0000_0000_0001 | (word & 0x800f_ffff_ffff_fff0),
            _ => (small as f64 / 4.0).to_bits(),
        },
        STRING | NAME => match pick {
            0 => word & TOP,
            1 => random.pick(&[0, TOP, TOP - 1, 1 << 31]),
            _ => small,
        },
        _ => 0,
    }
}

const FLOATS: [f64; 6] = [
    0.0,
    -0.0,
    f64::INFINITY,
    f64::NEG_INFINITY,
    f64::MIN_POSITIVE,
    f64::MAX,
];

/// Gives some of the tokens other payloads.
pub fn vary_payloads(tokens: &mut [Token], random: &mut Random) {
    for token in tokens.iter_mut().filter(|token| token.has_payload()) {
        if random.percent(30) {
            token.payload = payload(token.kind, random);
        }
    }
}
