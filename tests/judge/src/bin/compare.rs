//! `compare COUNT [SEED]`: generates streams and compares the array reader with piccolo's parser on
//! each. At the first difference prints the stream and what was read, and exits with 1.

use std::{env, process::ExitCode};

use judge::{
    examine,
    generate::{limits, Family, Generator},
    marked,
    random::Random,
    tally::Tally,
};

fn main() -> ExitCode {
    let mut arguments = env::args().skip(1).map(|argument| argument.parse());
    let (Some(Ok(count)), seed @ (None | Some(Ok(_))), None) =
        (arguments.next(), arguments.next(), arguments.next())
    else {
        eprintln!("usage: compare COUNT [SEED]");
        return ExitCode::from(2);
    };
    let seed = seed.map_or(1, |seed| seed.expect("matched above"));
    piccolo::with_deep_stack(|| match compare(count, seed) {
        Ok(tally) => {
            print!("{tally}");
            println!("no difference in {} streams", tally.streams());
            ExitCode::SUCCESS
        }
        Err(difference) => {
            println!("{difference}");
            ExitCode::FAILURE
        }
    })
}

/// Examines `count` generated streams, and before them the few that are always the same.
fn compare(count: u64, seed: u64) -> Result<Tally, String> {
    let mut tally = Tally::default();
    let marked = marked::scripts().into_iter().map(|marked| marked.stream);
    for stream in marked.chain(limits::streams()) {
        let mut random = Random::new(seed);
        examine(Family::Fixed, &stream, &mut random, &mut tally)?;
    }
    let generator = Generator::new();
    for number in 0..count {
        let mut random = Random::for_stream(seed, number);
        let (family, stream) = generator.stream(number, &mut random);
        examine(family, &stream, &mut random, &mut tally)
            .map_err(|difference| format!("stream {number} of seed {seed}: {difference}"))?;
    }
    Ok(tally)
}

fn examine(
    family: Family,
    stream: &[u64],
    random: &mut Random,
    tally: &mut Tally,
) -> Result<(), String> {
    tally.stream(family, stream);
    let examined = examine::examine(stream, random, tally).and_then(|outcomes| {
        let accepted = outcomes.of_crate.accepted() && outcomes.of_manual.accepted();
        if family.is_of_the_grammar() && !accepted {
            return Err("a script of the grammar was refused".to_owned());
        }
        Ok(())
    });
    examined.map_err(|difference| {
        let words: Vec<String> = stream.iter().map(u64::to_string).collect();
        format!("{difference}\nstream: {}", words.join(" "))
    })
}
