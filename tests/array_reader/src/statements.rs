//! Blocks and statements.

use crate::{
    expressions::Last,
    kind::*,
    operators::Ranking,
    quarrel::Watch,
    reader::{Reader, Step, EXPECTED_ASSIGN_OR_IN, EXPECTED_PARAMETER},
    tag,
};

impl<R: Ranking, W: Watch> Reader<'_, R, W> {
    pub fn block(&mut self, guards: u32) -> Step<()> {
        let block = self.tree.open();
        let mut returns = 0;
        loop {
            match self.cursor.look() {
                STREAM_END | ELSE | ELSE_IF | END | UNTIL => break,
                SEMI_COLON => self.cursor.step(),
                RETURN => {
                    self.return_statement(guards)?;
                    returns = 1;
                    break;
                }
                kind => self.statement(kind, guards)?,
            }
        }
        // A return has left the token after it unlooked at, as far as the mark goes.
        self.cursor.look();
        let closing_line = self.cursor.line();
        self.tree.close(block, tag::BLOCK, returns, closing_line);
        Ok(())
    }

    /// Holds no guard.
    fn return_statement(&mut self, guards: u32) -> Step<()> {
        let statement = self.tree.open();
        let line = self.cursor.line();
        self.cursor.step();
        let count = match self.cursor.look() {
            STREAM_END | END | SEMI_COLON | ELSE | ELSE_IF | UNTIL => 0,
            _ => self.expression_list(guards)?,
        };
        self.accept(SEMI_COLON);
        self.tree.close(statement, tag::RETURN, count, line);
        Ok(())
    }

    /// A statement that starts with a token of this kind, already looked at.
    fn statement(&mut self, kind: u64, guards: u32) -> Step<()> {
        let guards = self.guard(guards)?;
        let statement = self.tree.open();
        let line = self.cursor.line();
        let (tag, value) = match kind {
            IF => (tag::IF, self.if_statement(guards)?),
            WHILE => (tag::WHILE, self.while_statement(guards)?),
            DO => (tag::DO, self.do_statement(guards)?),
            FOR => self.for_statement(guards)?,
            REPEAT => (tag::REPEAT, self.repeat_statement(guards)?),
            FUNCTION => (tag::FUNCTION, self.function_statement(guards)?),
            LOCAL => {
                if self.cursor.check_second(FUNCTION) {
                    self.cursor.step();
                    (tag::LOCAL_FUNCTION, self.local_function(guards)?)
                } else {
                    (tag::LOCAL, self.local_statement(guards)?)
                }
            }
            DOUBLE_COLON => (tag::LABEL, self.label_statement()?),
            BREAK => {
                self.cursor.step();
                (tag::BREAK, 0)
            }
            GOTO => {
                self.cursor.step();
                (tag::GOTO, self.expect_name()?)
            }
            _ => self.expression_statement(guards)?,
        };
        self.tree.close(statement, tag, value, line);
        Ok(())
    }

    fn if_statement(&mut self, guards: u32) -> Step<u64> {
        self.cursor.step();
        self.condition_and_block(guards)?;
        let mut value = 0;
        while self.accept(ELSE_IF) {
            self.condition_and_block(guards)?;
            value += 2;
        }
        if self.accept(ELSE) {
            self.block(guards)?;
            value += 1;
        }
        self.expect(END)?;
        Ok(value)
    }

    fn condition_and_block(&mut self, guards: u32) -> Step<()> {
        self.expression(guards)?;
        self.expect(THEN)?;
        self.block(guards)
    }

    fn while_statement(&mut self, guards: u32) -> Step<u64> {
        self.cursor.step();
        self.expression(guards)?;
        self.loop_body(guards)?;
        Ok(0)
    }

    fn loop_body(&mut self, guards: u32) -> Step<()> {
        self.expect(DO)?;
        self.block(guards)?;
        self.expect(END)
    }

    fn do_statement(&mut self, guards: u32) -> Step<u64> {
        self.loop_body(guards)?;
        Ok(0)
    }

    fn for_statement(&mut self, guards: u32) -> Step<(u64, u64)> {
        self.cursor.step();
        let name = self.expect_name()?;
        match self.next()? {
            ASSIGN => {
                self.cursor.step();
                self.expression(guards)?;
                self.expect(COMMA)?;
                self.expression(guards)?;
                if self.accept(COMMA) {
                    self.expression(guards)?;
                }
                self.loop_body(guards)?;
                Ok((tag::NUMERIC_FOR, name))
            }
            COMMA | IN => {
                self.tree.leaf(tag::NAME, name);
                let names = 1 + self.more_names()?;
                self.expect(IN)?;
                self.expression_list(guards)?;
                self.loop_body(guards)?;
                Ok((tag::GENERIC_FOR, names))
            }
            _ => Err(self.unexpected(EXPECTED_ASSIGN_OR_IN)),
        }
    }

    /// The names of a list after its first, and how many.
    fn more_names(&mut self) -> Step<u64> {
        let mut count = 0;
        while self.accept(COMMA) {
            self.name_leaf()?;
            count += 1;
        }
        Ok(count)
    }

    fn repeat_statement(&mut self, guards: u32) -> Step<u64> {
        self.cursor.step();
        self.block(guards)?;
        self.expect(UNTIL)?;
        self.expression(guards)?;
        Ok(0)
    }

    fn function_statement(&mut self, guards: u32) -> Step<u64> {
        self.cursor.step();
        self.name_leaf()?;
        let mut value = 0;
        loop {
            match self.cursor.look() {
                DOT => {
                    self.cursor.step();
                    self.name_leaf()?;
                    value += 2;
                }
                COLON => {
                    self.cursor.step();
                    self.name_leaf()?;
                    value += 1;
                    break;
                }
                _ => break,
            }
        }
        self.definition(guards)?;
        Ok(value)
    }

    fn local_function(&mut self, guards: u32) -> Step<u64> {
        self.cursor.step();
        let name = self.expect_name()?;
        self.definition(guards)?;
        Ok(name)
    }

    fn local_statement(&mut self, guards: u32) -> Step<u64> {
        self.cursor.step();
        self.name_leaf()?;
        let names = 1 + self.more_names()?;
        if self.accept(ASSIGN) {
            self.expression_list(guards)?;
        }
        Ok(names)
    }

    fn label_statement(&mut self) -> Step<u64> {
        self.cursor.step();
        let name = self.expect_name()?;
        self.expect(DOUBLE_COLON)?;
        Ok(name)
    }

    /// A call or an assignment. Their records differ, but both begin with a suffixed expression.
    fn expression_statement(&mut self, guards: u32) -> Step<(u64, u64)> {
        let mut last = self.suffixed(guards)?;
        // Told by both refusals, even when a later target is at fault.
        let line = self.cursor.line();
        if !matches!(self.cursor.kind(), ASSIGN | COMMA) {
            return match last {
                Last::Call => Ok((tag::CALL_STATEMENT, 0)),
                _ => Err(self.expression_not_statement(line)),
            };
        }
        let mut targets = 0;
        loop {
            if !matches!(last, Last::Name | Last::Field) {
                return Err(self.assign_to_expression(line));
            }
            targets += 1;
            if !self.accept(COMMA) {
                break;
            }
            last = self.suffixed(guards)?;
        }
        self.expect(ASSIGN)?;
        self.expression_list(guards)?;
        Ok((tag::ASSIGNMENT, targets))
    }

    /// Parameters and body of a function, from the parenthesis on.
    pub fn definition(&mut self, guards: u32) -> Step<()> {
        let definition = self.tree.open();
        self.expect(LEFT_PAREN)?;
        let mut value = 0;
        if !self.cursor.check(RIGHT_PAREN) {
            loop {
                match self.next()? {
                    NAME => {
                        self.tree.leaf(tag::NAME, self.cursor.payload());
                        self.cursor.step();
                        value += 2;
                    }
                    DOTS => {
                        self.cursor.step();
                        value += 1;
                        break;
                    }
                    _ => return Err(self.unexpected(EXPECTED_PARAMETER)),
                }
                if !self.accept(COMMA) {
                    break;
                }
            }
        }
        self.expect(RIGHT_PAREN)?;
        self.block(guards)?;
        self.expect(END)?;
        self.tree.close(definition, tag::DEFINITION, value, 0);
        Ok(())
    }
}
