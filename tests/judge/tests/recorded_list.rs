//! The recorded list still holds, and its parts fit together.

use std::fs;

use array_reader::kind::STREAM_END;
use judge::{
    marked::{self, Told},
    program_form,
    reading::Reading,
    record::form::{self, fits},
};

/// Cargo runs tests in the folder of their package.
const FOLDER: &str = "../recorded/";

fn text(name: &str) -> String {
    fs::read_to_string(format!("{FOLDER}{name}")).expect("a recorded file")
}

fn streams() -> Vec<Vec<u64>> {
    let mut streams = vec![Vec::new()];
    for line in text("streams.txt").lines() {
        let record = program_form::parse_line(line);
        let ends = record[0] == STREAM_END;
        streams.last_mut().expect("a stream begun").extend(record);
        if ends {
            streams.push(Vec::new());
        }
    }
    assert_eq!(streams.pop(), Some(Vec::new()), "the last stream is ended");
    streams
}

fn answers() -> String {
    let mut text = String::new();
    for stream in streams() {
        for reading in Reading::ALL {
            let (answer, tree) = form::read(reading, &stream);
            text += &form::lines(&answer, &tree);
        }
    }
    text
}

#[test]
fn every_stream_is_of_the_form() {
    assert!(streams().iter().all(|stream| fits(stream)));
}

#[test]
fn all_answers_are_as_recorded() {
    assert!(answers() == text("answers.txt"));
}

/// With the numbers, and the trees, that the scope document gives, read from the recorded text.
#[test]
fn the_marked_scripts_come_first() {
    let (streams, answers) = (streams(), text("answers.txt"));
    let mut lines = answers.lines();
    for (index, script) in marked::scripts().iter().enumerate() {
        assert_eq!(streams[index], script.stream, "{}", script.name);
        for reading in Reading::ALL {
            let name = (&script.name, reading);
            let mut tree = Vec::new();
            // A record has four words, an answer five.
            let answer = loop {
                let words = program_form::parse_line(lines.next().expect("an answer"));
                if words.len() == 5 {
                    break words;
                }
                tree.extend(words);
            };
            let told = Told {
                number: answer[0],
                line: answer[1],
                found: answer[2],
                expected: answer[3],
            };
            assert_eq!(told, script.told(reading), "{name:?}");
            assert_eq!(answer[4], tree.len() as u64, "{name:?}");
            if let Some(whole) = script.tree {
                assert_eq!(program_form::records(&tree), whole, "{name:?}");
            }
        }
    }
}

/// The gate runs `batch` on the list.
#[test]
fn batch_is_run_on_the_list() {
    let of_batch = |name: &str| {
        fs::read_to_string(format!("../../crates/batch/{name}")).expect("a file of batch")
    };
    assert!(of_batch("stdin") == text("streams.txt"));
    assert!(of_batch("stdout") == text("answers.txt"));
}
