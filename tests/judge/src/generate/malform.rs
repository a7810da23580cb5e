//! Faults in the records of a stream, or in its length.

use array_reader::kind::*;

use crate::random::Random;

const TOO_LARGE: u64 = 1 << 32;

/// One fault, sometimes a second or third.
pub fn malform(words: &mut Vec<u64>, random: &mut Random) {
    for _ in 0..random.pick(&[1, 1, 1, 2, 3]) {
        malform_once(words, random);
    }
}

fn malform_once(words: &mut Vec<u64>, random: &mut Random) {
    if words.len() < 4 {
        return;
    }
    let records = words.len() / 4;
    let any = random.below(records) * 4;
    let last = (records - 1) * 4;
    match random.below(16) {
        0 => words.clear(),
        1 => words.truncate(words.len() - random.between(1, 3)),
        2 => {
            for _ in 0..random.between(1, 3) {
                words.push(random.pick(&[0, STREAM_END, u64::MAX]));
            }
        }
        3 => words[any] = random.pick(&[60, 61, 64, 255, 256, 256 + NAME, TOO_LARGE, u64::MAX]),
        4 => words[any] = STREAM_END,
        5 => words[any..any + 4].copy_from_slice(&[STREAM_END, 0, 1, 1]),
        6 => words.truncate(last),
        7 => words[last] = random.below(STREAM_END as usize) as u64,
        8 => words.extend([STREAM_END, 0, 1, 1]),
        9 => words[any + 1] = random.pick(&[1, 7, TOO_LARGE, u64::MAX]),
        10 => {
            // An id one too large, if the stream has one.
            let with_id = (0..records)
                .map(|record| record * 4)
                .find(|at| *at >= any && matches!(words[*at], STRING | NAME));
            if let Some(at) = with_id {
                words[at + 1] = random.pick(&[TOO_LARGE, TOO_LARGE + 5, u64::MAX]);
            }
        }
        11 => words[any + 2] = random.pick(&[TOO_LARGE, TOO_LARGE + 1, u64::MAX]),
        12 => words[any + 3] = random.pick(&[TOO_LARGE, TOO_LARGE + 1, u64::MAX]),
        13 => words[last + 1] = random.pick(&[1, 59, u64::MAX]),
        14 => words[last + 3] = words[last + 3].wrapping_add(1),
        _ => {
            let line = random.pick(&[TOO_LARGE, u64::MAX]);
            words[last + 2] = line;
            words[last + 3] = line;
        }
    }
}
