//! The place in a stream, and how far it has been looked at.

use crate::kind::STREAM_END;

/// Holds a well-formed stream. `place` is the index of the next token, or of the end record;
/// `mark` is how many tokens have been looked at, at the furthest, and is past the last token once
/// the end has been seen.
pub(crate) struct Cursor<'a> {
    stream: &'a [u64],
    place: usize,
    mark: usize,
}

impl<'a> Cursor<'a> {
    pub fn new(stream: &'a [u64]) -> Self {
        Cursor {
            stream,
            place: 0,
            mark: 0,
        }
    }

    pub fn place(&self) -> usize {
        self.place
    }

    /// The kind of the next token, or of the end record, with no look ahead.
    #[inline(always)]
    pub fn kind(&self) -> u64 {
        self.stream[self.place * 4]
    }

    #[inline(always)]
    pub fn payload(&self) -> u64 {
        self.stream[self.place * 4 + 1]
    }

    /// The line of the next token, or the end line.
    #[inline(always)]
    pub fn line(&self) -> u64 {
        self.stream[self.place * 4 + 2]
    }

    /// Looks at the next token as all readers but the checks do: two tokens are fetched.
    #[inline(always)]
    pub fn look(&mut self) -> u64 {
        self.reach_two();
        self.kind()
    }

    /// Whether the next token is of this kind; one token is fetched.
    #[inline(always)]
    pub fn check(&mut self, kind: u64) -> bool {
        self.mark = self.mark.max(self.place + 1);
        self.kind() == kind
    }

    /// Whether the token after the next one is of this kind; there must be a next one.
    #[inline(always)]
    pub fn check_second(&mut self, kind: u64) -> bool {
        debug_assert_ne!(self.kind(), STREAM_END);
        self.reach_two();
        self.stream[(self.place + 1) * 4] == kind
    }

    /// Takes the next token, which must be there.
    #[inline(always)]
    pub fn step(&mut self) {
        debug_assert_ne!(self.kind(), STREAM_END);
        self.reach_two();
        self.place += 1;
    }

    /// The line the reading has come to: after the last token looked at, or the end line once that
    /// has been seen.
    pub fn reading_line(&self) -> u64 {
        let end = self.stream.len() / 4 - 1;
        self.stream[(self.mark - 1).min(end) * 4 + 3]
    }

    /// The place never falls and nothing reaches further than this, so the mark never falls.
    #[inline(always)]
    fn reach_two(&mut self) {
        self.mark = self.place + 2;
    }
}
