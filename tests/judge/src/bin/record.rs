//! `record DIRECTORY [SEED]`: writes the recorded list, streams with their answers under all three
//! readings, each of them examined first.

use std::{
    collections::{BTreeMap, HashMap, HashSet},
    env, fs,
    path::Path,
    process::ExitCode,
};

use array_reader::Answer;
use judge::{
    examine::examine,
    generate::Generator,
    marked, program_form,
    random::Random,
    reading::Reading,
    record::{
        edges,
        features::{features, Feature},
        form,
    },
    tally::Tally,
};

/// How many streams the short ones are chosen from.
const CANDIDATES: u64 = 400_000;

/// The most tokens of a stream chosen for its features.
const SHORT: usize = 30;

fn main() -> ExitCode {
    let arguments: Vec<String> = env::args().skip(1).collect();
    let (directory, seed) = match arguments.as_slice() {
        [directory] => (directory, Ok(1)),
        [directory, seed] => (directory, seed.parse()),
        _ => {
            eprintln!("usage: record DIRECTORY [SEED]");
            return ExitCode::from(2);
        }
    };
    let seed = seed.expect("the seed is a number");
    piccolo::with_deep_stack(|| record(Path::new(directory), seed));
    ExitCode::SUCCESS
}

fn record(directory: &Path, seed: u64) {
    let mut list = List::default();
    list.add("marked", marked::scripts().into_iter().map(|m| m.stream));
    list.add("room", edges::room());
    list.add("depth", edges::depth());
    list.add("chains", edges::chains());
    list.add("scripts", edges::scripts());
    list.add("short", chosen(seed));
    list.write(directory);
    list.report();
}

/// The list being made, and counts of what is in it.
#[derive(Default)]
struct List {
    streams: String,
    answers: String,
    known: HashSet<Vec<u64>>,
    groups: BTreeMap<&'static str, usize>,
    numbers: BTreeMap<(&'static str, u64), usize>,
    expected: BTreeMap<(u64, u64), usize>,
    tags: BTreeMap<u64, usize>,
    tally: Tally,
}

impl List {
    fn add(&mut self, group: &'static str, streams: impl IntoIterator<Item = Vec<u64>>) {
        for stream in streams {
            if self.known.insert(stream.clone()) {
                *self.groups.entry(group).or_default() += 1;
                self.add_stream(&stream);
            }
        }
    }

    fn add_stream(&mut self, stream: &[u64]) {
        assert!(form::fits(stream), "a stream of the program's form");
        examine(stream, &mut Random::new(1), &mut self.tally).expect("no difference");
        self.streams += &program_form::records(stream);
        for reading in Reading::ALL {
            let (answer, tree) = form::read(reading, stream);
            self.answers += &form::lines(&answer, &tree);
            self.count(reading, &answer, &tree);
        }
    }

    fn count(&mut self, reading: Reading, answer: &Answer, tree: &[u64]) {
        let number = (reading.name(), answer.number);
        *self.numbers.entry(number).or_default() += 1;
        if reading == Reading::Crate {
            if matches!(answer.number, 1 | 2) {
                let pair = (answer.number, answer.expected);
                *self.expected.entry(pair).or_default() += 1;
            }
            for record in tree.chunks_exact(4) {
                *self.tags.entry(record[0]).or_default() += 1;
            }
        }
    }

    fn write(&self, directory: &Path) {
        for (name, text) in [
            ("streams.txt", &self.streams),
            ("answers.txt", &self.answers),
        ] {
            fs::write(directory.join(name), text).expect("a file written");
            println!("{name}: {} bytes", text.len());
        }
    }

    fn report(&self) {
        println!("streams: {} {:?}", self.known.len(), self.groups);
        println!("answers: {:?}", self.numbers);
        println!("number and expected: {:?}", self.expected);
        println!("tree records of the crate reading by tag: {:?}", self.tags);
    }
}

/// Short streams that together show every feature as often as wanted: the cheapest first, each
/// taken if it shows something still wanted.
fn chosen(seed: u64) -> Vec<Vec<u64>> {
    let generator = Generator::new();
    let mut candidates: Vec<Candidate> = (0..CANDIDATES)
        .map(|number| {
            let (_, stream) = generator.stream(number, &mut Random::for_stream(seed, number));
            stream
        })
        .filter(|stream| form::fits(stream) && stream.len() / 4 <= SHORT + 1)
        .map(Candidate::new)
        .collect();
    candidates.sort_by_key(|candidate| candidate.cost);

    let mut shown: HashMap<Feature, usize> = HashMap::new();
    let mut chosen = Vec::new();
    for candidate in candidates {
        let lacking =
            |feature: &Feature| shown.get(feature).copied().unwrap_or(0) < feature.wanted();
        if candidate.features.iter().any(lacking) {
            for feature in candidate.features {
                *shown.entry(feature).or_default() += 1;
            }
            chosen.push(candidate.stream);
        }
    }
    chosen
}

struct Candidate {
    stream: Vec<u64>,
    features: Vec<Feature>,
    /// The records to be written for it.
    cost: usize,
}

impl Candidate {
    fn new(stream: Vec<u64>) -> Self {
        let [of_crate, of_manual, of_agreed] =
            Reading::ALL.map(|reading| form::read(reading, &stream));
        let cost = stream.len() + 2 * (of_crate.1.len() + of_manual.1.len()) + of_agreed.1.len();
        let answers = [of_crate.0, of_manual.0, of_agreed.0];
        Candidate {
            features: features(&stream, &answers, &of_crate.1),
            cost,
            stream,
        }
    }
}
