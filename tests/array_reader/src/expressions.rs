//! Expressions, suffixes, arguments and tables.

use crate::{
    kind::*,
    operators::{self, Ranking},
    quarrel::Watch,
    reader::{Reader, Step, EXPECTED_ARGUMENTS, EXPECTED_PRIMARY},
    tag,
};

/// The last part of a suffixed expression, which decides what it may stand for.
#[derive(Clone, Copy)]
pub(crate) enum Last {
    Name,
    Group,
    Field,
    Call,
}

impl<R: Ranking, W: Watch> Reader<'_, R, W> {
    /// One or more expressions, and how many.
    pub fn expression_list(&mut self, guards: u32) -> Step<u64> {
        self.expression(guards)?;
        let mut count = 1;
        while self.accept(COMMA) {
            self.expression(guards)?;
            count += 1;
        }
        Ok(count)
    }

    /// A whole expression, which is a chain of its own.
    pub fn expression(&mut self, guards: u32) -> Step<()> {
        let outer = self.watch.enter();
        self.sub_expression(operators::LOWEST, guards)?;
        self.watch.leave(outer);
        Ok(())
    }

    fn sub_expression(&mut self, limit: u8, guards: u32) -> Step<()> {
        let guards = self.guard(guards)?;
        let expression = self.tree.open();
        let kind = self.next()?;
        match operators::unary(kind) {
            Some(code) => {
                let unary = self.tree.open();
                self.cursor.step();
                self.sub_expression(operators::UNARY, guards)?;
                self.tree.close(unary, tag::UNARY, code, 0);
            }
            None => self.simple(kind, guards)?,
        }
        let mut tails = 0;
        loop {
            let kind = self.cursor.look();
            let operator = R::binary(kind);
            if operator.left <= limit {
                break;
            }
            self.watch.operator(kind, self.cursor.place());
            let tail = self.tree.open();
            self.cursor.step();
            self.sub_expression(operator.right, guards)?;
            self.tree.close(tail, tag::TAIL, operator.code.into(), 0);
            tails += 1;
        }
        self.tree.close(expression, tag::EXPRESSION, tails, 0);
        Ok(())
    }

    /// An operand that starts with a token of this kind, already looked at.
    fn simple(&mut self, kind: u64, guards: u32) -> Step<()> {
        let tag = match kind {
            INTEGER => tag::INTEGER,
            FLOAT => tag::FLOAT,
            STRING => tag::STRING,
            NIL => tag::NIL,
            TRUE => tag::TRUE,
            FALSE => tag::FALSE,
            DOTS => tag::VAR_ARGS,
            LEFT_BRACE => return self.table(guards),
            FUNCTION => {
                self.cursor.step();
                return self.definition(guards);
            }
            _ => {
                self.suffixed(guards)?;
                return Ok(());
            }
        };
        self.tree.leaf(tag, self.cursor.payload());
        self.cursor.step();
        Ok(())
    }

    /// A name or group and its suffixes. The token after them has been looked at.
    pub fn suffixed(&mut self, guards: u32) -> Step<Last> {
        let suffixed = self.tree.open();
        let mut last = self.primary(guards)?;
        let mut suffixes = 0;
        loop {
            last = match self.cursor.look() {
                DOT => {
                    self.cursor.step();
                    let name = self.expect_name()?;
                    self.tree.leaf(tag::FIELD, name);
                    Last::Field
                }
                LEFT_BRACKET => {
                    let index = self.tree.open();
                    self.cursor.step();
                    self.expression(guards)?;
                    self.expect(RIGHT_BRACKET)?;
                    self.tree.close(index, tag::INDEX, 0, 0);
                    Last::Field
                }
                COLON => {
                    let call = self.tree.open();
                    self.cursor.step();
                    let name = self.expect_name()?;
                    self.arguments(guards)?;
                    self.tree.close(call, tag::METHOD_CALL, name, 0);
                    Last::Call
                }
                LEFT_PAREN | LEFT_BRACE | STRING => {
                    let call = self.tree.open();
                    let count = self.arguments(guards)?;
                    self.tree.close(call, tag::CALL, count, 0);
                    Last::Call
                }
                _ => break,
            };
            suffixes += 1;
        }
        self.tree.close(suffixed, tag::SUFFIXED, suffixes, 0);
        Ok(last)
    }

    #[inline]
    fn primary(&mut self, guards: u32) -> Step<Last> {
        match self.next()? {
            NAME => {
                self.tree.leaf(tag::NAME, self.cursor.payload());
                self.cursor.step();
                Ok(Last::Name)
            }
            LEFT_PAREN => {
                let group = self.tree.open();
                self.cursor.step();
                self.expression(guards)?;
                self.expect(RIGHT_PAREN)?;
                self.tree.close(group, tag::GROUPED, 0, 0);
                Ok(Last::Group)
            }
            _ => Err(self.unexpected(EXPECTED_PRIMARY)),
        }
    }

    /// The arguments of a call, and how many. A table or string without parentheses gets its
    /// expression record without a guard.
    fn arguments(&mut self, guards: u32) -> Step<u64> {
        match self.next()? {
            LEFT_PAREN => {
                self.cursor.step();
                let count = match self.next()? {
                    RIGHT_PAREN => 0,
                    _ => self.expression_list(guards)?,
                };
                self.expect(RIGHT_PAREN)?;
                Ok(count)
            }
            LEFT_BRACE => {
                let expression = self.tree.open();
                self.table(guards)?;
                self.tree.close(expression, tag::EXPRESSION, 0, 0);
                Ok(1)
            }
            STRING => {
                let expression = self.tree.open();
                self.tree.leaf(tag::STRING, self.cursor.payload());
                self.cursor.step();
                self.tree.close(expression, tag::EXPRESSION, 0, 0);
                Ok(1)
            }
            _ => Err(self.unexpected(EXPECTED_ARGUMENTS)),
        }
    }

    /// A table constructor, from its brace on.
    fn table(&mut self, guards: u32) -> Step<()> {
        let table = self.tree.open();
        self.cursor.step();
        let mut fields = 0;
        while !self.cursor.check(RIGHT_BRACE) {
            self.field(guards)?;
            fields += 1;
            match self.next()? {
                COMMA | SEMI_COLON => self.cursor.step(),
                _ => break,
            }
        }
        self.expect(RIGHT_BRACE)?;
        self.tree.close(table, tag::TABLE, fields, 0);
        Ok(())
    }

    fn field(&mut self, guards: u32) -> Step<()> {
        let field = self.tree.open();
        let (tag, value) = match self.next()? {
            NAME if self.cursor.check_second(ASSIGN) => {
                let name = self.cursor.payload();
                self.cursor.step();
                self.cursor.step();
                (tag::NAMED_FIELD, name)
            }
            LEFT_BRACKET => {
                self.cursor.step();
                self.expression(guards)?;
                self.expect(RIGHT_BRACKET)?;
                self.expect(ASSIGN)?;
                (tag::INDEXED_FIELD, 0)
            }
            _ => (tag::ARRAY_FIELD, 0),
        };
        self.expression(guards)?;
        self.tree.close(field, tag, value, 0);
        Ok(())
    }
}
