//! `speed [SEED]`: nanoseconds a token of the array reader's readings and of piccolo's parser, on
//! one long script of the grammar.

use std::{env, hint::black_box, time::Instant};

use array_reader::kind;
use judge::{dress, generate::grammar, random::Random, reading::Reading, token::Token};

const TOKENS: usize = 50_000;
const ROUNDS: u32 = 40;

fn main() {
    let seed = env::args()
        .nth(1)
        .map_or(1, |seed| seed.parse().expect("a seed"));
    piccolo::with_deep_stack(|| measure(seed));
}

fn measure(seed: u64) {
    let stream = long_script(&mut Random::new(seed));
    let tokens = stream.len() / 4 - 1;
    let needed = piccolo::parse(&stream)
        .expect("a script of the grammar")
        .len();
    let mut nodes = vec![0; needed];
    println!("{tokens} tokens, {} tree records", needed / 4);

    for reading in Reading::ALL {
        report(reading.name(), tokens, || {
            black_box(reading.read(black_box(&stream), &mut nodes));
        });
    }
    report("piccolo's parser, into its own tree", tokens, || {
        black_box(piccolo::parses(black_box(&stream)));
    });
    report("piccolo's parser and the flat tree", tokens, || {
        let _ = black_box(piccolo::parse(black_box(&stream)));
    });
}

/// The best of the rounds is the one least disturbed.
fn report(name: &str, tokens: usize, mut round: impl FnMut()) {
    let best = (0..ROUNDS)
        .map(|_| {
            let start = Instant::now();
            round();
            start.elapsed()
        })
        .min()
        .expect("a round");
    let nanoseconds = best.as_nanos() as f64 / tokens as f64;
    println!("{name}: {nanoseconds:.2} ns a token");
}

/// Scripts one after another, each a `do` block so that returns may stand in them, and each read
/// alike by both rankings.
fn long_script(random: &mut Random) -> Vec<u64> {
    let mut tokens: Vec<Token> = Vec::new();
    while tokens.len() < TOKENS {
        let script = grammar::script(random);
        if script.iter().any(|token| token.kind == kind::NOT_EQUAL) {
            continue;
        }
        tokens.push(Token::plain(kind::DO));
        tokens.extend(script);
        tokens.push(Token::plain(kind::END));
    }
    dress::stream(&tokens, random)
}
