//! Reads one stream in every way and holds the readings to the rules.

use array_reader::Answer;
use piccolo::Refusal;

use crate::{
    malformed, manual_parse::ManualParse, quarrel, random::Random, reading::Reading, tally::Tally,
};

/// What the node array holds before a call; no tree has such a word by chance.
const PATTERN: u64 = 0xa5a5_5a5a_c3c3_3c3c;

/// A reading's answer, and its tree if it has accepted.
#[derive(Debug, Clone, PartialEq, Eq)]
pub struct Outcome {
    pub answer: Answer,
    pub tree: Vec<u64>,
}

impl Outcome {
    pub fn accepted(&self) -> bool {
        self.answer.number == 0
    }

    fn too_deep(&self) -> bool {
        self.answer.number == 5
    }
}

/// All three readings of a stream, with room enough.
pub struct Outcomes {
    pub of_crate: Outcome,
    pub of_manual: Outcome,
    pub of_agreed: Outcome,
}

/// Examines a stream; an error says what was wrong.
pub fn examine(stream: &[u64], random: &mut Random, tally: &mut Tally) -> Result<Outcomes, String> {
    let outcomes = match malformed::first_fault(stream) {
        Some((found, reason)) => {
            tally.reason(reason);
            examine_malformed(stream, found)?
        }
        None => examine_well_formed(stream, random, tally)?,
    };
    for (reading, outcome) in Reading::ALL.into_iter().zip(outcomes.each()) {
        tally.answer(reading, &outcome.answer);
        examine_room(reading, stream, outcome, random, tally)?;
    }
    tally.tree(&outcomes.of_crate.tree);
    Ok(outcomes)
}

impl Outcomes {
    pub fn each(&self) -> [&Outcome; 3] {
        [&self.of_crate, &self.of_manual, &self.of_agreed]
    }
}

fn examine_malformed(stream: &[u64], found: u64) -> Result<Outcomes, String> {
    let malformed = Outcome {
        answer: Answer {
            number: 6,
            found,
            ..Answer::default()
        },
        tree: Vec::new(),
    };
    for reading in Reading::ALL {
        let outcome = read(reading, stream, roomy(stream))?;
        same(reading.name(), &outcome, "the plain rule", &malformed)?;
    }
    Ok(Outcomes {
        of_crate: malformed.clone(),
        of_manual: malformed.clone(),
        of_agreed: malformed,
    })
}

fn examine_well_formed(
    stream: &[u64],
    random: &mut Random,
    tally: &mut Tally,
) -> Result<Outcomes, String> {
    let parsed = piccolo::parse(stream);
    // Without a `~=` the rankings are the same.
    let by_manual = quarrel::has_not_equal(stream).then(|| ManualParse::new(stream));
    let tokens = stream.len() / 4 - 1;
    let words = [Some(&parsed), by_manual.as_ref().map(|parse| &parse.parsed)]
        .into_iter()
        .flatten()
        .map(|parsed| parsed.as_ref().map_or(0, Vec::len))
        .max()
        .unwrap_or(0);
    if words / 4 > 4 * tokens + 1 {
        return Err(format!("{} records for {tokens} tokens", words / 4));
    }
    let room = match words {
        0 => roomy(stream),
        words => words + random.below(9),
    };

    let of_crate = read(Reading::Crate, stream, room)?;
    as_parsed(Reading::Crate, &of_crate, stream, &parsed)?;

    let of_manual = read(Reading::Manual, stream, room)?;
    match &by_manual {
        Some(ManualParse { given, parsed }) => {
            tally.manual_checked_by_parser();
            as_parsed(Reading::Manual, &of_manual, given, parsed)?;
        }
        None => same("manual, without ~=", &of_manual, "crate", &of_crate)?,
    }
    tally.depth(of_crate.too_deep(), of_manual.too_deep());
    alike_but_for_depth(&of_crate, &of_manual)?;

    let of_agreed = read(Reading::Agreed, stream, room)?;
    let prescribed = prescribed_agreement(stream, &of_crate, &of_manual)?;
    same("agreed", &of_agreed, "what is prescribed", &prescribed)?;

    Ok(Outcomes {
        of_crate,
        of_manual,
        of_agreed,
    })
}

/// Room for any tree of the stream and some words more, unless the stream is a very long one.
fn roomy(stream: &[u64]) -> usize {
    (4 * stream.len() + 5).min(100_000)
}

/// Makes a reading with a node array of `room` words, and sees to what every reading must do with
/// that array and with the numbers it does not use.
pub fn read(reading: Reading, stream: &[u64], room: usize) -> Result<Outcome, String> {
    let mut nodes = vec![PATTERN; room];
    let answer = reading.read(stream, &mut nodes);
    let wrong = |what: &str| Err(format!("{} reading: {what}: {answer:?}", reading.name()));

    let Answer {
        number,
        line,
        found,
        expected,
        count,
    } = answer;
    let unused_are_zero = match number {
        0 | 7 => line == 0 && found == 0 && expected == 0,
        1 => count == 0,
        2 => found == 0 && count == 0,
        3..=5 => found == 0 && expected == 0 && count == 0,
        6 => line == 0 && expected == 0 && count == 0,
        8 => expected == 0 && count == 0,
        _ => return wrong("no such number"),
    };
    if !unused_are_zero {
        return wrong("a number that should be 0 is not");
    }

    if number != 0 {
        if nodes.iter().any(|word| *word != 0) {
            return wrong("a refusal has left words that are not zero");
        }
        nodes.clear();
    } else {
        let count = count as usize;
        if count > room {
            return wrong("accepted without room");
        }
        if nodes[count..].iter().any(|word| *word != PATTERN) {
            return wrong("words past the count have changed");
        }
        nodes.truncate(count);
    }
    Ok(Outcome {
        answer,
        tree: nodes,
    })
}

/// Compares an outcome with what piccolo's parser made of the stream.
fn as_parsed(
    reading: Reading,
    outcome: &Outcome,
    stream: &[u64],
    parsed: &Result<Vec<u64>, Refusal>,
) -> Result<(), String> {
    let answer = &outcome.answer;
    match parsed {
        Ok(tree) => {
            let accepted = Outcome {
                answer: Answer {
                    count: tree.len() as u64,
                    ..Answer::default()
                },
                tree: tree.clone(),
            };
            same(reading.name(), outcome, "parser", &accepted)
        }
        Err(refusal) => {
            // The parser tells which token it met by its text alone.
            let unexpected = (answer.number == 1).then(|| text_of(stream, answer.found));
            let told = Refusal {
                number: answer.number,
                line: answer.line,
                expected: answer.expected,
                unexpected,
            };
            if told == *refusal {
                Ok(())
            } else {
                let name = reading.name();
                Err(format!("{name}: {answer:?}\nparser: {refusal:?}"))
            }
        }
    }
}

fn text_of(stream: &[u64], token: u64) -> String {
    let at = token as usize * 4;
    if token < (stream.len() / 4 - 1) as u64 {
        piccolo::debug_text(stream[at], stream[at + 1])
    } else {
        "no token".to_owned()
    }
}

/// The rankings tell the same of a stream, unless one of them goes too deep.
fn alike_but_for_depth(of_crate: &Outcome, of_manual: &Outcome) -> Result<(), String> {
    if of_crate.too_deep() || of_manual.too_deep() || of_crate.answer == of_manual.answer {
        Ok(())
    } else {
        let (of_crate, of_manual) = (&of_crate.answer, &of_manual.answer);
        Err(format!(
            "the rankings tell different things\ncrate: {of_crate:?}\nmanual: {of_manual:?}"
        ))
    }
}

/// What the agreed reading must give, by the other two and the plain quarrel rule, which must find
/// a quarrel just where the trees differ.
fn prescribed_agreement(
    stream: &[u64],
    of_crate: &Outcome,
    of_manual: &Outcome,
) -> Result<Outcome, String> {
    if !of_crate.accepted() {
        return Ok(of_crate.clone());
    }
    let quarrel = quarrel::first_quarrel(stream, &of_crate.tree);
    // A reading that goes too deep has no tree here, but where only one does they must differ.
    if quarrel.is_some() != (of_crate.tree != of_manual.tree) {
        let (of_crate, of_manual) = (&of_crate.answer, &of_manual.answer);
        return Err(format!(
            "the first quarrel is {quarrel:?} by the rule, and the trees say otherwise\n\
            crate: {of_crate:?}\nmanual: {of_manual:?}"
        ));
    }
    if !of_manual.accepted() {
        return Ok(of_manual.clone());
    }
    Ok(match quarrel {
        None => of_crate.clone(),
        Some(index) => Outcome {
            answer: Answer {
                number: 8,
                line: stream[index * 4 + 2],
                found: index as u64,
                ..Answer::default()
            },
            tree: Vec::new(),
        },
    })
}

/// Makes the reading again with other node arrays: exactly full, a word or more short, empty.
fn examine_room(
    reading: Reading,
    stream: &[u64],
    with_room: &Outcome,
    random: &mut Random,
    tally: &mut Tally,
) -> Result<(), String> {
    let label = |room: usize| format!("{} with room for {room} words", reading.name());
    if !with_room.accepted() {
        let room = random.pick(&[0, 1, 4, 7, 64, roomy(stream)]);
        let outcome = read(reading, stream, room)?;
        return same(&label(room), &outcome, "with other room", with_room);
    }

    let needed = with_room.tree.len();
    let full = read(reading, stream, needed)?;
    same(&label(needed), &full, "with other room", with_room)?;
    tally.full_to_the_word();

    let no_room = Outcome {
        answer: Answer {
            number: 7,
            count: needed as u64,
            ..Answer::default()
        },
        tree: Vec::new(),
    };
    for room in [needed - 1, needed - 4, random.below(needed), 0] {
        let outcome = read(reading, stream, room)?;
        same(&label(room), &outcome, "no room", &no_room)?;
        tally.answer(reading, &outcome.answer);
    }
    Ok(())
}

fn same(name: &str, outcome: &Outcome, other_name: &str, other: &Outcome) -> Result<(), String> {
    if outcome == other {
        return Ok(());
    }
    let mut difference = format!(
        "{name}: {:?}\n{other_name}: {:?}",
        outcome.answer, other.answer
    );
    let records = outcome.tree.chunks(4).zip(other.tree.chunks(4));
    if let Some((index, (one, two))) = records.enumerate().find(|(_, (one, two))| one != two) {
        difference += &format!("\ntree record {index}: {one:?}, {two:?}");
    }
    Err(difference)
}
