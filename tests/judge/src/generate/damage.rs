//! Damage to a script: tokens taken out, put in, changed, moved, repeated, the rest cut off.

use array_reader::kind::*;

use crate::{dress, random::Random, token::Token};

pub fn damage(tokens: &mut Vec<Token>, random: &mut Random) {
    for _ in 0..random.pick(&[1, 1, 1, 2, 2, 3, 5]) {
        damage_once(tokens, random);
    }
}

fn damage_once(tokens: &mut Vec<Token>, random: &mut Random) {
    if tokens.is_empty() {
        tokens.push(any_token(random));
        return;
    }
    let place = random.below(tokens.len());
    match random.below(14) {
        0..=2 => {
            tokens.remove(place);
        }
        3..=4 => tokens.insert(place, any_token(random)),
        5 => tokens[place] = any_token(random),
        6 => {
            let other = random.below(tokens.len());
            tokens.swap(place, other);
        }
        7 | 8 => {
            // One part more than the grammar has.
            let part: Vec<Token> = random
                .pick(PARTS)
                .iter()
                .map(|kind| token(*kind, random))
                .collect();
            tokens.splice(place..place, part);
        }
        9 => {
            let end = tokens.len().min(place + random.between(1, 4));
            let part = tokens[place..end].to_vec();
            let other = random.below(tokens.len());
            tokens.splice(other..other, part);
        }
        10 => {
            // A script that goes wrong at its last token or just before it.
            tokens.truncate(place);
            for _ in 0..random.below(3) {
                tokens.push(any_token(random));
            }
        }
        _ => tokens.truncate(place),
    }
}

const PARTS: &[&[u64]] = &[
    &[COMMA, NAME],
    &[COMMA, INTEGER],
    &[COMMA, DOTS],
    &[SEMI_COLON, INTEGER],
    &[DOT, NAME],
    &[COLON, NAME],
    &[ASSIGN, NAME],
    &[ADD, NAME],
    &[NOT_EQUAL, NAME],
    &[LEFT_PAREN, RIGHT_PAREN],
    &[LEFT_BRACE, RIGHT_BRACE],
    &[LEFT_BRACKET, NAME, RIGHT_BRACKET],
    &[ELSE],
    &[ELSE_IF, NAME, THEN],
    &[RETURN, NAME],
    &[BREAK],
    &[DO, END],
    &[FUNCTION, NAME, LEFT_PAREN, RIGHT_PAREN, END],
];

pub fn any_token(random: &mut Random) -> Token {
    let kind = if random.percent(15) {
        NAME
    } else {
        random.below(STREAM_END as usize) as u64
    };
    token(kind, random)
}

fn token(kind: u64, random: &mut Random) -> Token {
    Token {
        kind,
        payload: dress::payload(kind, random),
    }
}
