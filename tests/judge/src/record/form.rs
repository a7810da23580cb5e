//! What the recorded list can hold: streams in the form the program reads, and their answers.

use array_reader::{kind::STREAM_END, Answer};

use crate::{program_form, reading::Reading};

pub const MOST_TOKENS: usize = 1_024;

/// The room lent for the recorded answers: 2,048 records.
pub const ROOM: usize = 4 * 2_048;

/// Whether a stream can be told from the next one and written with the digits there are: its one
/// end record is its last, its kinds have two digits and its lines eight.
pub fn fits(stream: &[u64]) -> bool {
    let records = stream.len() / 4;
    stream.len() % 4 == 0
        && (1..=MOST_TOKENS + 1).contains(&records)
        && stream.chunks_exact(4).enumerate().all(|(index, record)| {
            (record[0] == STREAM_END) == (index == records - 1)
                && record[0] <= 0xff
                && record[2] <= 0xffff_ffff
                && record[3] <= 0xffff_ffff
        })
}

/// The answer of a reading with the room of the list, and the tree.
pub fn read(reading: Reading, stream: &[u64]) -> (Answer, Vec<u64>) {
    let mut nodes = vec![0; ROOM];
    let answer = reading.read(stream, &mut nodes);
    nodes.truncate(if answer.number == 0 {
        answer.count as usize
    } else {
        0
    });
    (answer, nodes)
}

/// The lines of an answer: the tree's records, then the five numbers.
pub fn lines(answer: &Answer, tree: &[u64]) -> String {
    program_form::records(tree) + &program_form::answer(answer)
}
