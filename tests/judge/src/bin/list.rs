//! `list DIRECTORY COUNT [SEED]`: writes streams in the form the program reads, and what each
//! reading answers, for readers to be tried on that are not linked here. Every stream is examined
//! first, so the crate reading's answers are those of piccolo's own parser.

use std::{
    env, fs,
    io::{BufWriter, Write},
    path::Path,
    process::ExitCode,
};

use judge::{
    examine::examine, generate::Generator, program_form, random::Random, reading::Reading,
    record::form, tally::Tally,
};

fn main() -> ExitCode {
    let arguments: Vec<String> = env::args().skip(1).collect();
    let (Some(directory), Some(Ok(count))) = (
        arguments.first(),
        arguments.get(1).map(|count| count.parse()),
    ) else {
        eprintln!("usage: list DIRECTORY COUNT [SEED]");
        return ExitCode::from(2);
    };
    let seed = arguments
        .get(2)
        .map_or(1, |seed| seed.parse().expect("the seed is a number"));
    piccolo::with_deep_stack(|| list(Path::new(directory), count, seed));
    println!("{count} streams of seed {seed}");
    ExitCode::SUCCESS
}

/// Lists as many streams as asked for, of those that the form can hold.
fn list(directory: &Path, count: u64, seed: u64) {
    let open = |name: &str| {
        BufWriter::new(fs::File::create(directory.join(name)).expect("a file to write"))
    };
    let put = |file: &mut BufWriter<fs::File>, text: &str| {
        file.write_all(text.as_bytes()).expect("a file written");
    };
    let mut streams = open("streams.txt");
    let mut answers = open("answers.txt");
    let generator = Generator::new();
    let mut tally = Tally::default();
    let fitting = (0..)
        .map(|number| {
            let mut random = Random::for_stream(seed, number);
            let (_, stream) = generator.stream(number, &mut random);
            (stream, random)
        })
        .filter(|(stream, _)| form::fits(stream));
    for (stream, mut random) in fitting.take(count as usize) {
        examine(&stream, &mut random, &mut tally).expect("no difference");
        put(&mut streams, &program_form::records(&stream));
        for reading in Reading::ALL {
            let (answer, tree) = form::read(reading, &stream);
            put(&mut answers, &form::lines(&answer, &tree));
        }
    }
}
