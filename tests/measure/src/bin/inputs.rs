//! `inputs DIRECTORY`: writes the streams to be read, the same on every machine, and prints a line
//! for each file: its name, how many streams, how many tokens.

use std::{env, io, path::Path};

use array_reader::kind;
use judge::{dress, generate::grammar, random::Random, script, token::Token};

/// The tokens of the long scripts.
const SIZES: [usize; 9] = [10, 30, 100, 300, 1_000, 3_000, 10_000, 30_000, 100_000];

const SMALL_SCRIPTS: u64 = 300;

/// What stands around what, as often as the 199 levels allow: a name, the outermost, each one and
/// the innermost, with `@` for what comes next.
const DEEP: [(&str, &str, &str, &str); 16] = [
    ("groups", "return @", "(@)", "a"),
    ("tables", "return @", "{@}", "a"),
    ("indexed-fields", "return @", "{[@] = 1}", "a"),
    ("indexes", "return @", "a[@]", "a"),
    ("calls", "return @", "f(@)", "a"),
    ("method-calls", "return @", "a:m(@)", "a"),
    ("table-calls", "return @", "f{@}", "a"),
    ("powers", "return @", "a ^ @", "a"),
    ("negations", "return @", "-@", "a"),
    ("functions", "return @", "function() return @ end", "a"),
    ("assigned-functions", "@", "x = function() @ end", ""),
    ("do-blocks", "@", "do @ end", ""),
    ("else-ifs", "@", "if a then elseif b then @ end", ""),
    ("numeric-fors", "@", "for i = 1, 2 do @ end", ""),
    ("generic-fors", "@", "for k, v in p do @ end", ""),
    ("named-functions", "@", "function f() @ end", ""),
];

fn main() -> io::Result<()> {
    let directory = env::args().nth(1).expect("a directory");
    let put = |name: &str, streams: &[Vec<u64>]| {
        let tokens: usize = streams.iter().map(|stream| stream.len() / 4 - 1).sum();
        println!("{name} {} {tokens}", streams.len());
        measure::write(&Path::new(&directory).join(name), streams)
    };
    let small: Vec<_> = (0..SMALL_SCRIPTS).map(small).collect();
    put("small", &small)?;
    for size in SIZES {
        put(&format!("long-{size}"), &[long(size)])?;
    }
    let mut leftover = long(100_000);
    leftover.splice(leftover.len() - 4..leftover.len() - 4, [kind::END, 0, 1, 1]);
    put("refused-100001", &[leftover])?;
    for (name, outermost, each, innermost) in DEEP {
        put(&format!("deep-{name}"), &[deep(outermost, each, innermost)])?;
    }
    Ok(())
}

/// A script of 20 to 200 tokens.
fn small(number: u64) -> Vec<u64> {
    let mut random = Random::for_stream(1, number);
    loop {
        let tokens = plain_script(&mut random);
        if (20..=200).contains(&tokens.len()) {
            return dress::stream(&tokens, &mut random);
        }
    }
}

/// Scripts one after another, each a `do` block so that returns may stand in them, and at the end
/// statements of one token, up to just so many.
fn long(size: usize) -> Vec<u64> {
    let mut random = Random::new(1);
    let mut tokens = Vec::new();
    while tokens.len() < size {
        let script = plain_script(&mut random);
        if tokens.len() + script.len() + 2 <= size {
            tokens.push(Token::plain(kind::DO));
            tokens.extend(script);
            tokens.push(Token::plain(kind::END));
        } else if size - tokens.len() < 40 {
            tokens.push(Token::plain(kind::BREAK));
        }
    }
    dress::stream(&tokens, &mut random)
}

/// A script without a `~=`, so that all readings accept it.
fn plain_script(random: &mut Random) -> Vec<Token> {
    loop {
        let script = grammar::script(random);
        if script.iter().all(|token| token.kind != kind::NOT_EQUAL) {
            return script;
        }
    }
}

fn deep(outermost: &str, each: &str, innermost: &str) -> Vec<u64> {
    let mut accepted = Vec::new();
    let mut text = outermost.to_owned();
    loop {
        let stream = script::stream(&text.replace('@', innermost));
        if array_reader::crate_reading(&stream, &mut []).number == 5 {
            return accepted;
        }
        accepted = stream;
        text = text.replace('@', each);
    }
}
