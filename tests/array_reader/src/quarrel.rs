//! Watching the chains of binary operators go by for a `~=` that the two rankings place apart.

use crate::kind::*;

/// Sees every binary operator as it is taken, in the order of the tokens, and every expression
/// that starts a chain of its own.
pub(crate) trait Watch {
    /// The chain in progress, set aside while an inner one is read.
    type Chain;

    fn enter(&mut self) -> Self::Chain;
    fn operator(&mut self, kind: u64, index: usize);
    fn leave(&mut self, outer: Self::Chain);
}

/// For the readings under one ranking.
pub(crate) struct Unwatched;

impl Watch for Unwatched {
    type Chain = ();

    #[inline(always)]
    fn enter(&mut self) {}

    #[inline(always)]
    fn operator(&mut self, _kind: u64, _index: usize) {}

    #[inline(always)]
    fn leave(&mut self, _outer: ()) {}
}

/// The piece of a chain, between one `and` or `or` and the next, that is being read.
#[derive(Clone, Copy)]
pub(crate) struct Piece {
    /// An operator has come by that makes every later `~=` of the piece quarrel.
    loosened: bool,
    /// The last `~=`, while no comparison has followed it; `NONE` if there is none such.
    waiting: usize,
}

const NONE: usize = usize::MAX;

const FRESH: Piece = Piece {
    loosened: false,
    waiting: NONE,
};

pub(crate) struct Quarrels {
    piece: Piece,
    first: usize,
}

impl Quarrels {
    pub fn new() -> Self {
        Quarrels {
            piece: FRESH,
            first: NONE,
        }
    }

    /// The index of the first `~=` that quarrels.
    pub fn first(&self) -> Option<usize> {
        (self.first != NONE).then_some(self.first)
    }
}

impl Watch for Quarrels {
    type Chain = Piece;

    #[inline(always)]
    fn enter(&mut self) -> Piece {
        std::mem::replace(&mut self.piece, FRESH)
    }

    #[inline(always)]
    fn operator(&mut self, kind: u64, index: usize) {
        // An outer `~=` may be found to quarrel only after an inner one, so the least is kept;
        // `NONE` is never less.
        match kind {
            AND | OR => self.piece = FRESH,
            NOT_EQUAL => {
                if self.piece.loosened {
                    self.first = self.first.min(index);
                }
                self.piece.waiting = index;
            }
            EQUAL | LESS_THAN | LESS_EQUAL | GREATER_THAN | GREATER_EQUAL => {
                self.piece.loosened = true;
                self.piece.waiting = NONE;
            }
            BIT_OR | BIT_NOT_XOR | BIT_AND | SHIFT_LEFT | SHIFT_RIGHT | CONCAT => {
                self.piece.loosened = true;
                self.first = self.first.min(self.piece.waiting);
            }
            ADD | MINUS => self.first = self.first.min(self.piece.waiting),
            _ => {}
        }
    }

    #[inline(always)]
    fn leave(&mut self, outer: Piece) {
        self.piece = outer;
    }
}
