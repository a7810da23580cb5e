//! `stand_in intake` and `stand_in batch`: the array reader in the form of the two programs, for tests of what runs them where the
//! programs themselves are not proved yet.

use std::{
    env,
    io::{self, Read, Write},
    process::ExitCode,
};

use array_reader::Answer;
use judge::{program_form, reading::Reading, record::form};

const END: u64 = 59;
const MOST_RECORDS: usize = 1025;

fn main() -> ExitCode {
    let Some(program) = env::args().nth(1) else {
        eprintln!("usage: stand_in intake|batch");
        return ExitCode::from(2);
    };
    let mut text = String::new();
    io::stdin()
        .read_to_string(&mut text)
        .expect("records on standard input");
    let words: Vec<Vec<u64>> = text.lines().map(program_form::parse_line).collect();
    let told = match program.as_str() {
        "intake" => intake(&words),
        _ => words
            .split_inclusive(|record| record[0] == END)
            .map(batch)
            .collect(),
    };
    io::stdout()
        .write_all(told.as_bytes())
        .expect("an answer written");
    ExitCode::SUCCESS
}

/// The agreed reading: the tree, or the five numbers.
fn intake(records: &[Vec<u64>]) -> String {
    if records.len() > MOST_RECORDS {
        return program_form::answer(&Answer {
            number: 6,
            found: MOST_RECORDS as u64,
            ..Answer::default()
        });
    }
    let (answer, tree) = form::read(Reading::Agreed, &records.concat());
    if answer.number == 0 {
        program_form::records(&tree)
    } else {
        program_form::answer(&answer)
    }
}

/// All readings, each with its tree, if there is one, and its five numbers.
fn batch(records: &[Vec<u64>]) -> String {
    let stream = records.concat();
    Reading::ALL
        .into_iter()
        .map(|reading| {
            let (answer, tree) = form::read(reading, &stream);
            form::lines(&answer, &tree)
        })
        .collect()
}
