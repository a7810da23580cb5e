//! Streams on both sides of a limit: of depth, of room, of the number of tokens, of the grammar, and
//! between chains that quarrel and chains that don't.

use array_reader::Answer;

use super::form::{self, MOST_TOKENS};
use crate::{reading::Reading, script};

/// Forms that take guards, each left open where the next guard is asked for. Three names follow,
/// which make a refusal in any case: without a guard to be had it is for depth, else for what the
/// names are. That is as telling as a tree and much shorter, and the line told shows how far the
/// reader has looked.
const FORMS_IN_BLOCKS: &[&str] = &[
    "do",
    "while",
    "if a then",
    "for i = 1, 2,",
    "repeat until",
    "function f()",
    "return",
    "x =",
    "f(",
    "f {",
];

const FORMS_IN_EXPRESSIONS: &[&str] = &[
    "-",
    "a ^",
    "a ..",
    "a + a *",
    "{",
    "{1,",
    "{x =",
    "{[",
    "f(",
    "f(1,",
    "f {",
    "a[",
    "a:m(",
    "function() return",
    // Deeper under one ranking than under the other.
    "a ~= a +",
    "a == a ~=",
    "a .. a ~=",
];

const THREE_NAMES: &str = " a a a";

/// For each form the last stream some reading finds deep enough and the ones after it, up to the
/// first that all find too deep.
pub fn depth() -> Vec<Vec<u64>> {
    let mut streams = Vec::new();
    let of_blocks = FORMS_IN_BLOCKS.iter().map(|form| ("", "do ", form));
    let of_expressions = FORMS_IN_EXPRESSIONS
        .iter()
        .map(|form| ("return ", "(", form));
    for (before, base, form) in of_blocks.chain(of_expressions) {
        let stream = |height: usize| {
            let text = format!("{before}{}{form}{THREE_NAMES}", base.repeat(height));
            with_telling_lines(script::stream(&text))
        };
        let too_deep = |height: usize, reading: Reading| {
            let (answer, _) = form::read(reading, &stream(height));
            answer.number == 5
        };
        let ranked = [Reading::Crate, Reading::Manual];
        let first_for_some = (150..)
            .find(|height| ranked.iter().any(|reading| too_deep(*height, *reading)))
            .expect("a height too deep");
        let first_for_all = (first_for_some..)
            .find(|height| ranked.iter().all(|reading| too_deep(*height, *reading)))
            .expect("a height too deep");
        streams.extend((first_for_some - 1..=first_for_all).map(stream));
    }
    streams
}

/// Gives every token a line and an after-line that no other has, so that a line told tells which.
fn with_telling_lines(mut stream: Vec<u64>) -> Vec<u64> {
    let end = stream.len() / 4 - 1;
    for (index, record) in stream.chunks_exact_mut(4).enumerate() {
        record[2] = 2 * index as u64 + 1;
        record[3] = record[2] + u64::from(index < end);
    }
    stream
}

/// Trees of just as many records as there is room for, and of one more; and as many tokens as the
/// program reads.
pub fn room() -> Vec<Vec<u64>> {
    // A call has 4 records and 3 more for each string; a break has 1.
    let calls = |breaks: usize| format!("f {} {}", "'s' ".repeat(681), "break ".repeat(breaks));
    let full = script::stream(&calls(1));
    let one_more = script::stream(&calls(2));
    let needed = |stream: &[u64]| {
        let (Answer { number, count, .. }, _) = form::read(Reading::Agreed, stream);
        (number, count as usize)
    };
    assert_eq!(needed(&full), (0, form::ROOM));
    assert_eq!(needed(&one_more), (7, form::ROOM + 4));
    let most_tokens = script::stream(&";".repeat(MOST_TOKENS));
    vec![full, one_more, most_tokens]
}

/// Chains on the edge between quarrelling and quiet.
pub fn chains() -> Vec<Vec<u64>> {
    CHAINS.iter().map(|chain| script::stream(chain)).collect()
}

const CHAINS: &[&str] = &[
    "return a ~= b == c + d",
    "return a ~= b < c .. d",
    "return a ~= b ~= c + d",
    "return a ~= b and c + d",
    "return a ~= b or c | d",
    "return a == b and c ~= d",
    "return a .. b or c ~= d",
    "return a ~= b * c",
    "return a + b ~= c",
    "return a * b ~= c == d",
    "return a ~= b == c ~= d",
    "return (a ~= b + c) ~= d",
    "return (a == b) ~= c",
    "return a ~= (b + c)",
    "return a ~= f(b ~= c + d) + e",
    "return a + f(b ~= c + d) ~= e",
    "return a ~= {b == c ~= d} * 2",
    "return a ~= function() return b + c end",
    "return a ~= b[c + d] == e",
    "return a ~= -b + c",
    "return a ~= -b",
    "return not a ~= ~b",
    "return a ~= #b .. c",
    "x = a ~= b y = c + d",
    "f(a == b, c ~= d)",
];

/// Scripts on the edge of the grammar.
pub fn scripts() -> Vec<Vec<u64>> {
    SCRIPTS.iter().map(|text| script::stream(text)).collect()
}

const SCRIPTS: &[&str] = &[
    "function f(..., a) end",
    "function f(a, ...) end",
    "function f(a,) end",
    "function f(a b) end",
    "function f(1) end",
    "function a.b:c.d() end",
    "function a:b:c() end",
    "function a.b.c() end",
    "local function f(...) return ... end",
    "local function a.b() end",
    "local function",
    "local a, = 1",
    "local = 1",
    "local a < b > = 1",
    "for i = 1, 2, 3, 4 do end",
    "for i = 1 do end",
    "for a, b = 1, 2 do end",
    "for a.b in c do end",
    "for a in b, c do end",
    "for i = 1, 2 do end",
    "for i = 1, 2, 3 do end",
    "while a do break end",
    "while a do return 1; end",
    "repeat return until a",
    "repeat local a until a",
    "if a then return else return end",
    "if a then return elseif b then return end",
    "if a then else elseif b then end",
    "if a then else else end",
    "if a then return end",
    "repeat until a until b",
    "do end end",
    "break break",
    "return; ;",
    "return return",
    "return 1,",
    "; ; ;",
    "::a:: ::b::",
    "::a:: goto a ::b",
    "f {} = 1",
    "f 's' = 1",
    "a.b:c() = 1",
    "a.b, c[d], e = 1",
    "a, (b) = 1",
    "a, b()",
    "a.b",
    "(f)",
    "(f())",
    "(f)()",
    "f:g",
    "f:g.h()",
    "f {}\n{}\n's'\n()",
    "x.1 = 2",
    "x = a y = b",
    "x = a (b).c = d",
    "x = - - not # ~ a",
    "x = 2 ^ -3 ^ 2",
    "x = -2 .. 3 .. 4",
    "x = a ~ b ~ ~c",
    "x = ~= 1",
    "x = {a = 1, [b] = 2; c, d == e;}",
    "x = {[a] 1}",
    "x = {a b}",
    "x = {1,, 2}",
];
