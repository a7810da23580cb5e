//! Records and answers as lines of hexadecimal, the form the program reads and prints.

use std::fmt::Write;

use array_reader::Answer;

/// Stream records (kind, payload, line, after-line) or tree records (tag, value, line, size), one a
/// line.
pub fn records(words: &[u64]) -> String {
    let mut text = String::with_capacity(words.len() / 4 * 38);
    for record in words.chunks_exact(4) {
        writeln!(
            text,
            "{:02x} {:016x} {:08x} {:08x}",
            record[0], record[1], record[2], record[3]
        )
        .expect("strings take all text");
    }
    text
}

/// The five numbers of an answer on one line.
pub fn answer(answer: &Answer) -> String {
    format!(
        "{:08x} {:08x} {:08x} {:08x} {:08x}\n",
        answer.number, answer.line, answer.found, answer.expected, answer.count
    )
}

/// The words of one line of hexadecimal numbers.
pub fn parse_line(line: &str) -> Vec<u64> {
    line.split(' ')
        .map(|word| u64::from_str_radix(word, 16).expect("a hexadecimal number"))
        .collect()
}
