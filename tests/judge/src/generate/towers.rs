//! Nests as deep as the guards go, and a little deeper.
//!
//! A tower is built of storeys, each written as a script with a hole (`@`) for the next: around a
//! block or around an expression. Nearly every storey takes one guard, so the height tells how near
//! the limit the top is; the few that take fewer or more only move it.

use crate::{dress, random::Random, script, token::Token};

/// A block in a block: statements.
const BLOCK_IN_BLOCK: &[&str] = &[
    "do @ end",
    "while a do @ end",
    "if a then @ end",
    "if a then elseif b then @ end",
    "if a then else @ end",
    "for i = 1, 2 do @ end",
    "for i = 1, 2, 3 do @ end",
    "for k, v in p do @ end",
    "repeat @ until a",
    "function f() @ end",
    "function a.b.c:d(e, ...) @ end",
    "local function f(a) @ end",
];

/// An expression in a block. The first of these, with `return`, take no guard.
const EXPRESSION_IN_BLOCK: &[&str] = &[
    "return @",
    "return 1, @",
    "x = @",
    "x, y = 1, @",
    "local x = @",
    "local x, y = 1, @",
    "f(@)",
    "f{@}",
    "f:m(@)",
    "(@)()",
    "x[@] = 1",
    "a, x[@] = 1",
    "if @ then end",
    "if a then elseif @ then end",
    "while @ do end",
    "repeat until @",
    "for i = @, 2 do end",
    "for i = 1, @ do end",
    "for i = 1, 2, @ do end",
    "for k in @ do end",
    "for k in 1, @ do end",
];

/// An expression in an expression.
const EXPRESSION_IN_EXPRESSION: &[&str] = &[
    "(@)",
    "-@",
    "not @",
    "~@",
    "#@",
    "a ^ @",
    "a .. @",
    "{@}",
    "{1; @}",
    "{x = @}",
    "{[@] = 1}",
    "{[1] = @}",
    "f(@)",
    "f(1, @)",
    "f{@}",
    "f{x = @}",
    "f{[@] = 's'}",
    "f 's' {@}",
    "a[@]",
    "a.b[@]",
    "a:m(@)",
    "a:m{@}",
    "(@).x",
    "(@)[1]",
    "(@)(1)",
    "(@)'s'",
    "(a)[@]",
];

/// An operator before what comes next; whether that is deeper depends on what it is.
const OPERATOR_BEFORE_EXPRESSION: &[&str] = &[
    "a + @",
    "a * @",
    "a ~= @",
    "a == @",
    "a < @",
    "a | @",
    "a ~ @",
    "a & @",
    "a << @",
    "a and @",
    "a or @",
    "a ~= b + @",
    "a == b ~= @",
    "a .. b ~= @",
    "- a ^ @",
];

const BLOCK_IN_EXPRESSION: &[&str] = &["function() @ end", "function(a, ...) @ end"];

const TOP_OF_EXPRESSION: &[&str] = &[
    "a",
    "a",
    "1",
    "'s'",
    "{}",
    "...",
    "f 's'",
    "f {}",
    "f()",
    "a:m 's'",
    "f {} 's' {}",
    "-a",
    "a + a",
    "a ~= a + a",
    "a == a ~= a",
    "a ~= a .. a",
    "a .. a ~= a",
    "a ~= a * a + a",
    "a ~= a + a * a",
    "a | a ~= a",
    "a + a ~= a",
    "a ~= a == a",
    "function() end",
    "",
];

const TOP_OF_BLOCK: &[&str] = &[
    "", "", ";", "break", "return", "return a", "x = 1", "goto a",
];

/// What a storey stands in, or holds.
#[derive(Clone, Copy, PartialEq, Eq)]
enum Place {
    Block,
    Expression,
}

/// A storey: the tokens before and after its hole.
struct Storey {
    stands_in: Place,
    holds: Place,
    before: Vec<Token>,
    after: Vec<Token>,
}

pub struct Builder {
    storeys: Vec<Storey>,
    expression_tops: Vec<Vec<Token>>,
    block_tops: Vec<Vec<Token>>,
}

impl Builder {
    #[allow(clippy::new_without_default)]
    pub fn new() -> Self {
        use Place::{Block, Expression};
        let mut storeys = Vec::new();
        for (stands_in, holds, texts) in [
            (Block, Block, BLOCK_IN_BLOCK),
            (Block, Expression, EXPRESSION_IN_BLOCK),
            (Expression, Expression, EXPRESSION_IN_EXPRESSION),
            (Expression, Expression, OPERATOR_BEFORE_EXPRESSION),
            (Expression, Block, BLOCK_IN_EXPRESSION),
        ] {
            storeys.extend(texts.iter().map(|text| storey(stands_in, holds, text)));
        }
        let tops = |texts: &[&str]| texts.iter().map(|text| script::tokens(text)).collect();
        Builder {
            storeys,
            expression_tops: tops(TOP_OF_EXPRESSION),
            block_tops: tops(TOP_OF_BLOCK),
        }
    }

    pub fn tower(&self, random: &mut Random) -> Vec<Token> {
        let height = match random.below(10) {
            0 => random.between(1, 30),
            1 => random.between(180, 210),
            _ => random.between(195, 202),
        };
        // How many sorts of storeys there are: one or two make a plain nest of one form, which is
        // where each form meets the limit by itself.
        let sorts = random.pick(&[1, 1, 1, 2, 2, 3, 100]);
        let mut tokens = self.build(height, sorts, random);
        dress::vary_payloads(&mut tokens, random);
        tokens
    }

    fn build(&self, height: usize, sorts: usize, random: &mut Random) -> Vec<Token> {
        let mut place = Place::Block;
        let mut used: Vec<&Storey> = Vec::new();
        let mut chosen: Vec<&Storey> = Vec::new();
        if random.percent(60) {
            // Most towers stand on one statement and are of expressions from there on.
            let first = self.any_storey(random, |s| {
                s.stands_in == Place::Block && s.holds == Place::Expression
            });
            used.push(first);
            place = Place::Expression;
        }
        while used.len() < height {
            let known: Vec<&Storey> = chosen
                .iter()
                .copied()
                .filter(|storey| storey.stands_in == place)
                .collect();
            let storey = if known.len() >= sorts || (!known.is_empty() && random.percent(50)) {
                random.pick(&known)
            } else {
                let new = self.any_storey(random, |storey| storey.stands_in == place);
                chosen.push(new);
                new
            };
            used.push(storey);
            place = storey.holds;
        }

        let mut tokens = Vec::new();
        used.iter().for_each(|storey| tokens.extend(&storey.before));
        let tops = match place {
            Place::Block => &self.block_tops,
            Place::Expression => &self.expression_tops,
        };
        tokens.extend(&tops[random.below(tops.len())]);
        used.iter()
            .rev()
            .for_each(|storey| tokens.extend(&storey.after));
        tokens
    }

    fn any_storey(&self, random: &mut Random, fits: impl Fn(&Storey) -> bool) -> &Storey {
        loop {
            let storey = &self.storeys[random.below(self.storeys.len())];
            if fits(storey) {
                return storey;
            }
        }
    }
}

fn storey(stands_in: Place, holds: Place, text: &str) -> Storey {
    let (before, after) = text.split_once('@').expect("a storey has a hole");
    Storey {
        stands_in,
        holds,
        before: script::tokens(before),
        after: script::tokens(after),
    }
}
