//! Writing the tree's records.

/// Records go straight into the lent words. When those are full the tree goes on being counted, so
/// that the count needed is known at the end.
pub(crate) struct Tree<'a> {
    words: &'a mut [u64],
    /// Words used, or wanted.
    used: usize,
}

/// A record whose place is kept until its children are written.
#[must_use]
pub(crate) struct Open(usize);

impl<'a> Tree<'a> {
    pub fn new(words: &'a mut [u64]) -> Self {
        Tree { words, used: 0 }
    }

    pub fn used(&self) -> usize {
        self.used
    }

    #[inline(always)]
    pub fn open(&mut self) -> Open {
        let open = Open(self.used);
        self.used += 4;
        open
    }

    #[inline(always)]
    pub fn close(&mut self, Open(start): Open, tag: u64, value: u64, line: u64) {
        let size = (self.used - start) as u64 / 4;
        if let Some(record) = self.words.get_mut(start..start + 4) {
            record.copy_from_slice(&[tag, value, line, size]);
        }
    }

    #[inline(always)]
    pub fn leaf(&mut self, tag: u64, value: u64) {
        let open = self.open();
        self.close(open, tag, value, 0);
    }
}
