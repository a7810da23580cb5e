//! `oracle_lines COUNT SEED`: generates streams and prints each well-formed one with what piccolo's
//! parser makes of it, one a line:
//!
//!     the stream's words | number line expected | more
//!
//! where more is the words of the tree for number 0; for number 1 the tokens that have the text of
//! the unexpected one (the parser tells no index); else nothing.

use std::{
    env,
    io::{self, BufWriter, Write},
};

use judge::{generate::Generator, malformed, random::Random};

fn main() -> io::Result<()> {
    let arguments: Vec<u64> = env::args()
        .skip(1)
        .map(|argument| argument.parse().expect("a number"))
        .collect();
    let [count, seed] = arguments[..] else {
        panic!("usage: oracle_lines COUNT SEED");
    };
    piccolo::with_deep_stack(|| print(count, seed))
}

fn print(count: u64, seed: u64) -> io::Result<()> {
    let mut out = BufWriter::new(io::stdout().lock());
    let generator = Generator::new();
    for number in 0..count {
        let (_, stream) = generator.stream(number, &mut Random::for_stream(seed, number));
        if malformed::first_fault(&stream).is_none() {
            let (told, more) = answer(&stream);
            let [stream, told, more] = [stream, told, more].map(|words| join(&words));
            writeln!(out, "{stream} | {told} | {more}")?;
        }
    }
    out.flush()
}

fn answer(stream: &[u64]) -> (Vec<u64>, Vec<u64>) {
    match piccolo::parse(stream) {
        Ok(tree) => (vec![0, 0, 0], tree),
        Err(refusal) => {
            let tokens = stream.chunks_exact(4).take(stream.len() / 4 - 1);
            let has_the_text =
                |token: &[u64]| Some(piccolo::debug_text(token[0], token[1])) == refusal.unexpected;
            let found = (0..).zip(tokens).filter(|(_, token)| has_the_text(token));
            let told = vec![refusal.number, refusal.line, refusal.expected];
            (told, found.map(|(index, _)| index).collect())
        }
    }
}

fn join(words: &[u64]) -> String {
    let words: Vec<String> = words.iter().map(u64::to_string).collect();
    words.join(" ")
}
