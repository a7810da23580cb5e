//! The state of a reading, and the small steps all its parts are made of.

use std::marker::PhantomData;

use crate::{
    cursor::Cursor,
    kind::{NAME, STREAM_END},
    operators::Ranking,
    quarrel::Watch,
    tree::Tree,
    Answer,
};

/// How many guards may live at once.
const GUARDS: u32 = 199;

pub(crate) const EXPECTED_NAME: u64 = 60;
pub(crate) const EXPECTED_PRIMARY: u64 = 61;
pub(crate) const EXPECTED_ARGUMENTS: u64 = 62;
pub(crate) const EXPECTED_PARAMETER: u64 = 63;
pub(crate) const EXPECTED_ASSIGN_OR_IN: u64 = 64;

const EXPECTED_NOTHING: u64 = 0;

/// Says only that the reading has ended in a refusal, which is kept in the reader: what every step
/// hands back stays small.
pub(crate) struct Refused;

pub(crate) type Step<T> = Result<T, Refused>;

/// A reading under the ranking `R`, its operators seen by `W`.
pub(crate) struct Reader<'a, R, W> {
    pub cursor: Cursor<'a>,
    pub tree: Tree<'a>,
    pub watch: W,
    refusal: Answer,
    ranking: PhantomData<R>,
}

/// Reads a well-formed stream into `nodes`, as far as they go. On acceptance the words the tree
/// needs and the watch, else the refusal; the nodes then hold whatever was written before it.
pub(crate) fn read<R: Ranking, W: Watch>(
    stream: &[u64],
    nodes: &mut [u64],
    watch: W,
) -> Result<(usize, W), Answer> {
    let mut reader = Reader::<R, W> {
        cursor: Cursor::new(stream),
        tree: Tree::new(nodes),
        watch,
        refusal: Answer::default(),
        ranking: PhantomData,
    };
    match reader.chunk(GUARDS) {
        Ok(()) => Ok((reader.tree.used(), reader.watch)),
        Err(Refused) => Err(reader.refusal),
    }
}

impl<R: Ranking, W: Watch> Reader<'_, R, W> {
    fn chunk(&mut self, guards: u32) -> Step<()> {
        self.block(guards)?;
        if self.cursor.look() == STREAM_END {
            Ok(())
        } else {
            Err(self.ended(EXPECTED_NOTHING))
        }
    }

    /// Takes one of the guards left, before any look at the next token.
    #[inline(always)]
    pub fn guard(&mut self, guards: u32) -> Step<u32> {
        match guards.checked_sub(1) {
            Some(left) => Ok(left),
            None => Err(self.too_deep()),
        }
    }

    /// The kind of the next token, which must be there.
    #[inline(always)]
    pub fn next(&mut self) -> Step<u64> {
        match self.cursor.look() {
            STREAM_END => Err(self.ended(EXPECTED_NOTHING)),
            kind => Ok(kind),
        }
    }

    /// Takes the next token, which must be of this kind.
    #[inline(always)]
    pub fn expect(&mut self, kind: u64) -> Step<()> {
        if self.cursor.look() == kind {
            self.cursor.step();
            Ok(())
        } else {
            Err(self.missing(kind + 1))
        }
    }

    /// Takes the next token, which must be a name, and gives its id.
    #[inline(always)]
    pub fn expect_name(&mut self) -> Step<u64> {
        if self.cursor.look() == NAME {
            let name = self.cursor.payload();
            self.cursor.step();
            Ok(name)
        } else {
            Err(self.missing_name())
        }
    }

    /// Takes the next token if it is of this kind.
    #[inline(always)]
    pub fn accept(&mut self, kind: u64) -> bool {
        let found = self.cursor.check(kind);
        if found {
            self.cursor.step();
        }
        found
    }

    /// Takes a name and writes its record.
    pub fn name_leaf(&mut self) -> Step<()> {
        let name = self.expect_name()?;
        self.tree.leaf(crate::tag::NAME, name);
        Ok(())
    }

    /// The next token is another than it should be.
    #[cold]
    pub fn unexpected(&mut self, expected: u64) -> Refused {
        self.refuse(Answer {
            number: 1,
            line: self.cursor.line(),
            found: self.cursor.place() as u64,
            expected,
            count: 0,
        })
    }

    /// The left side of an assignment is none that can be assigned to.
    #[cold]
    pub fn assign_to_expression(&mut self, line: u64) -> Refused {
        self.refuse(Answer {
            number: 3,
            line,
            ..Answer::default()
        })
    }

    #[cold]
    pub fn expression_not_statement(&mut self, line: u64) -> Refused {
        self.refuse(Answer {
            number: 4,
            line,
            ..Answer::default()
        })
    }

    #[cold]
    fn ended(&mut self, expected: u64) -> Refused {
        self.refuse(Answer {
            number: 2,
            line: self.cursor.reading_line(),
            expected,
            ..Answer::default()
        })
    }

    #[cold]
    fn too_deep(&mut self) -> Refused {
        self.refuse(Answer {
            number: 5,
            line: self.cursor.reading_line(),
            ..Answer::default()
        })
    }

    #[cold]
    fn missing(&mut self, expected: u64) -> Refused {
        if self.cursor.kind() == STREAM_END {
            self.ended(expected)
        } else {
            self.unexpected(expected)
        }
    }

    /// Like `missing`, but the line told is the reading line, not the token's.
    #[cold]
    fn missing_name(&mut self) -> Refused {
        let refused = self.missing(EXPECTED_NAME);
        self.refusal.line = self.cursor.reading_line();
        refused
    }

    fn refuse(&mut self, refusal: Answer) -> Refused {
        self.refusal = refusal;
        Refused
    }
}
