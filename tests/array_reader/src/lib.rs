//! Reads a token stream, lent as an array of words, into a flat tree of records in another lent
//! array. Nothing is allocated, and no call goes deeper than the 199 guards let it.

#![forbid(unsafe_code)]

pub mod kind;
pub mod tag;

mod cursor;
mod expressions;
mod operators;
mod quarrel;
mod reader;
mod statements;
mod stream;
mod tree;

use operators::{Crate, Manual, Ranking};
use quarrel::{Quarrels, Unwatched};

/// What comes back from a reading; what a number does not use is 0.
#[derive(Debug, Clone, Copy, Default, PartialEq, Eq)]
pub struct Answer {
    /// 0 accepted, 1 unexpected token, 2 end of stream, 3 assignment to an expression, 4 expression
    /// that is no statement, 5 too deep, 6 malformed stream, 7 no room, 8 the readings differ.
    pub number: u64,
    pub line: u64,
    /// The index of a token (1, 8) or record (6).
    pub found: u64,
    /// What should have come (1, 2).
    pub expected: u64,
    /// Words used (0) or needed (7).
    pub count: u64,
}

/// The reading with piccolo's ranks.
pub fn crate_reading(stream: &[u64], nodes: &mut [u64]) -> Answer {
    let answer = one_ranking::<Crate>(stream, nodes);
    settle(answer, nodes)
}

/// The reading with the ranks of the Lua manual.
pub fn manual_reading(stream: &[u64], nodes: &mut [u64]) -> Answer {
    let answer = one_ranking::<Manual>(stream, nodes);
    settle(answer, nodes)
}

/// The reading that both rankings agree on.
pub fn agreed_reading(stream: &[u64], nodes: &mut [u64]) -> Answer {
    let answer = both_rankings(stream, nodes);
    settle(answer, nodes)
}

fn one_ranking<R: Ranking>(stream: &[u64], nodes: &mut [u64]) -> Result<usize, Answer> {
    check(stream)?;
    let (needed, Unwatched) = reader::read::<R, _>(stream, nodes, Unwatched)?;
    Ok(needed)
}

fn both_rankings(stream: &[u64], nodes: &mut [u64]) -> Result<usize, Answer> {
    check(stream)?;
    let (needed, quarrels) = reader::read::<Crate, _>(stream, nodes, Quarrels::new())?;
    let Some(index) = quarrels.first() else {
        // The manual's tree is the same one, so no deeper: there is nothing more to ask.
        return Ok(needed);
    };
    // Only whether the manual reading goes too deep is asked of it.
    reader::read::<Manual, _>(stream, &mut [], Unwatched)?;
    Err(Answer {
        number: 8,
        line: stream[index * 4 + 2],
        found: index as u64,
        ..Answer::default()
    })
}

fn check(stream: &[u64]) -> Result<(), Answer> {
    match stream::first_fault(stream) {
        None => Ok(()),
        Some(index) => Err(Answer {
            number: 6,
            found: index as u64,
            ..Answer::default()
        }),
    }
}

/// Turns the words needed, or the refusal, into the answer; a refusal leaves all nodes zero.
fn settle(outcome: Result<usize, Answer>, nodes: &mut [u64]) -> Answer {
    let answer = match outcome {
        Ok(needed) => Answer {
            number: if needed <= nodes.len() { 0 } else { 7 },
            count: needed as u64,
            ..Answer::default()
        },
        Err(refusal) => refusal,
    };
    if answer.number != 0 {
        nodes.fill(0);
    }
    answer
}
