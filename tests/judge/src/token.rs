//! A token before it is given lines.

use array_reader::kind;

#[derive(Debug, Clone, Copy, PartialEq, Eq)]
pub struct Token {
    pub kind: u64,
    pub payload: u64,
}

impl Token {
    /// A token of a kind that carries nothing.
    pub fn plain(kind: u64) -> Self {
        Token { kind, payload: 0 }
    }

    pub fn has_payload(self) -> bool {
        self.kind >= kind::INTEGER
    }
}
