//! The array reader on the scripts the scope document marks, in all three readings.

use judge::{
    examine,
    marked::{self, Told},
    program_form,
    random::Random,
    reading::Reading,
    tally::Tally,
};

/// Room for the largest of their trees.
const ROOM: usize = 8_192;

#[test]
fn each_reading_tells_what_the_document_says() {
    for script in marked::scripts() {
        for reading in Reading::ALL {
            let mut nodes = vec![0; ROOM];
            let answer = reading.read(&script.stream, &mut nodes);
            let told = Told {
                number: answer.number,
                line: answer.line,
                found: answer.found,
                expected: answer.expected,
            };
            let name = (&script.name, reading);
            assert_eq!(told, script.told(reading), "{name:?}");
            assert_eq!(answer.count > 0, answer.number == 0, "{name:?}");
            if let Some(tree) = script.tree {
                let words = &nodes[..answer.count as usize];
                assert_eq!(program_form::records(words), tree, "{name:?}");
            }
        }
    }
}

/// Against piccolo's own parser, and with other room.
#[test]
fn each_script_passes_examination() {
    piccolo::with_deep_stack(|| {
        for script in marked::scripts() {
            let examined =
                examine::examine(&script.stream, &mut Random::new(1), &mut Tally::default());
            if let Err(difference) = examined {
                panic!("{}: {difference}", script.name);
            }
        }
    });
}
