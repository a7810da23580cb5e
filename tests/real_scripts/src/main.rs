//! Reads streams from standard input, each with its length in words before it, and tells of each what
//! the proved readings gave once all readers agree on it. All words are 64-bit and little-endian.
//!
//! For a stream it writes 0, then for the crate, the manual and the agreed reading the five numbers
//! of the answer, how many words the tree has, and the tree; or 1, and how many bytes and which bytes
//! say what differs.

use std::io::{self, BufReader, BufWriter, ErrorKind, Read, Write};

use array_reader::Answer;
use judge::{
    examine::{examine, Outcome, Outcomes},
    random::Random,
    reading::Reading,
    tally::Tally,
};

/// What the node array holds before a call; no tree has such a word by chance.
const PATTERN: u64 = 0x3c3c_c3c3_5a5a_a5a5;

extern "C" {
    fn exported_reading(
        choice: u64,
        stream: *const u64,
        words: usize,
        nodes: *mut u64,
        room: usize,
        answer: *mut u64,
        numbers: usize,
    );
}

fn main() -> io::Result<()> {
    piccolo::with_deep_stack(|| {
        let mut input = BufReader::new(io::stdin());
        let mut output = BufWriter::new(io::stdout());
        let mut random = Random::new(1);
        while let Some(stream) = next(&mut input)? {
            match compare(&stream, &mut random) {
                Ok(outcomes) => {
                    put(&mut output, &[0])?;
                    for Outcome { answer, tree } in outcomes.each() {
                        put(&mut output, &numbers(answer))?;
                        put(&mut output, &[tree.len() as u64])?;
                        put(&mut output, tree)?;
                    }
                }
                Err(difference) => {
                    put(&mut output, &[1, difference.len() as u64])?;
                    output.write_all(difference.as_bytes())?;
                }
            }
            output.flush()?;
        }
        Ok(())
    })
}

fn next(input: &mut impl Read) -> io::Result<Option<Vec<u64>>> {
    let mut word = [0; 8];
    match input.read_exact(&mut word) {
        Err(error) if error.kind() == ErrorKind::UnexpectedEof => return Ok(None),
        other => other?,
    }
    let mut bytes = vec![0; 8 * u64::from_le_bytes(word) as usize];
    input.read_exact(&mut bytes)?;
    let words = bytes.chunks_exact(8);
    let words = words.map(|word| u64::from_le_bytes(word.try_into().expect("eight bytes")));
    Ok(Some(words.collect()))
}

fn put(output: &mut impl Write, words: &[u64]) -> io::Result<()> {
    words
        .iter()
        .try_for_each(|word| output.write_all(&word.to_le_bytes()))
}

fn numbers(answer: &Answer) -> [u64; 5] {
    [
        answer.number,
        answer.line,
        answer.found,
        answer.expected,
        answer.count,
    ]
}

/// The array reader is examined against piccolo's parser, and the proved readings against the array
/// reader: with room and to spare, exactly full, a word short, and with none.
fn compare(stream: &[u64], random: &mut Random) -> Result<Outcomes, String> {
    let outcomes = examine(stream, random, &mut Tally::default())?;
    for (reading, outcome) in Reading::ALL.into_iter().zip(outcomes.each()) {
        let needed = outcome.tree.len();
        for room in [4 * stream.len() + 5, needed, needed.saturating_sub(1), 0] {
            compare_proved(reading, stream, outcome, room)?;
        }
    }
    Ok(outcomes)
}

fn compare_proved(
    reading: Reading,
    stream: &[u64],
    outcome: &Outcome,
    room: usize,
) -> Result<(), String> {
    let no_room = outcome.accepted() && outcome.tree.len() > room;
    let mut told = numbers(&outcome.answer);
    let mut nodes = vec![0; room];
    if no_room {
        told[0] = 7;
    } else if outcome.accepted() {
        nodes.fill(PATTERN);
        nodes[..outcome.tree.len()].copy_from_slice(&outcome.tree);
    }
    let (proved, written) = proved(reading, stream, room);
    if proved == told && written == nodes {
        return Ok(());
    }
    let word = (0..room).find(|at| written[*at] != nodes[*at]);
    Err(format!(
        "the {} reading with room for {room} words\nproved: {proved:?}\narray reader: {told:?}\n\
        first other word of the node array: {word:?}",
        reading.name()
    ))
}

fn proved(reading: Reading, stream: &[u64], room: usize) -> ([u64; 5], Vec<u64>) {
    let mut nodes = vec![PATTERN; room];
    let mut answer = [PATTERN; 5];
    unsafe {
        exported_reading(
            reading as u64,
            stream.as_ptr(),
            stream.len(),
            nodes.as_mut_ptr(),
            room,
            answer.as_mut_ptr(),
            answer.len(),
        )
    };
    (answer, nodes)
}
