//! From the parser's tree of boxes to the flat tree: four words a record (tag, value, line, size),
//! a parent before its children, the children in source order.

use crate::{compiler::parser::*, Id};

/// The words of a whole chunk.
pub fn flatten(chunk: &Chunk<Id>) -> Vec<u64> {
    let mut flat = Flat { words: Vec::new() };
    flat.block(&chunk.block);
    flat.words
}

struct Flat {
    words: Vec<u64>,
}

impl Flat {
    /// Writes a record and its children; the size is known once they are written.
    fn node(&mut self, tag: u64, value: u64, line: u64, children: impl FnOnce(&mut Self)) {
        let start = self.words.len();
        self.words.extend([tag, value, line, 0]);
        children(self);
        self.words[start + 3] = (self.words.len() - start) as u64 / 4;
    }

    fn leaf(&mut self, tag: u64, value: u64) {
        self.node(tag, value, 0, |_| {});
    }

    fn name(&mut self, name: &Id) {
        self.leaf(30, name.0);
    }

    fn names<'n>(&mut self, names: impl IntoIterator<Item = &'n Id>) {
        names.into_iter().for_each(|name| self.name(name));
    }

    fn expressions(&mut self, expressions: &[Expression<Id>]) {
        expressions.iter().for_each(|e| self.expression(e));
    }

    fn block(&mut self, block: &Block<Id>) {
        let returns = block.return_statement.is_some() as u64;
        self.node(1, returns, block.closed_on.0, |flat| {
            for statement in &block.statements {
                flat.statement(&statement.inner, statement.line_number.0);
            }
            if let Some(statement) = &block.return_statement {
                let returns = &statement.returns;
                flat.node(2, returns.len() as u64, statement.line_number.0, |flat| {
                    flat.expressions(returns);
                });
            }
        });
    }

    fn statement(&mut self, statement: &Statement<Id>, line: u64) {
        match statement {
            Statement::If(IfStatement {
                if_part,
                else_if_parts,
                else_part,
            }) => {
                let value = 2 * else_if_parts.len() as u64 + else_part.is_some() as u64;
                self.node(3, value, line, |flat| {
                    for (condition, block) in std::iter::once(if_part).chain(else_if_parts) {
                        flat.expression(condition);
                        flat.block(block);
                    }
                    if let Some(block) = else_part {
                        flat.block(block);
                    }
                });
            }
            Statement::While(WhileStatement { condition, block }) => {
                self.node(4, 0, line, |flat| {
                    flat.expression(condition);
                    flat.block(block);
                });
            }
            Statement::Do(block) => self.node(5, 0, line, |flat| flat.block(block)),
            Statement::For(ForStatement::Numeric {
                name,
                initial,
                limit,
                step,
                body,
            }) => self.node(6, name.0, line, |flat| {
                flat.expression(initial);
                flat.expression(limit);
                if let Some(step) = step {
                    flat.expression(step);
                }
                flat.block(body);
            }),
            Statement::For(ForStatement::Generic {
                names,
                arguments,
                body,
            }) => self.node(7, names.len() as u64, line, |flat| {
                flat.names(names);
                flat.expressions(arguments);
                flat.block(body);
            }),
            Statement::Repeat(RepeatStatement { body, until }) => {
                self.node(8, 0, line, |flat| {
                    flat.block(body);
                    flat.expression(until);
                });
            }
            Statement::Function(FunctionStatement {
                name,
                fields,
                method,
                definition,
            }) => {
                let value = 2 * fields.len() as u64 + method.is_some() as u64;
                self.node(9, value, line, |flat| {
                    flat.name(name);
                    flat.names(fields);
                    flat.names(method);
                    flat.definition(definition);
                });
            }
            Statement::LocalFunction(LocalFunctionStatement { name, definition }) => {
                self.node(10, name.0, line, |flat| flat.definition(definition));
            }
            Statement::LocalStatement(LocalStatement { names, values }) => {
                self.node(11, names.len() as u64, line, |flat| {
                    flat.names(names);
                    flat.expressions(values);
                });
            }
            Statement::Label(LabelStatement { name }) => self.node(12, name.0, line, |_| {}),
            Statement::Break => self.node(13, 0, line, |_| {}),
            Statement::Goto(GotoStatement { name }) => self.node(14, name.0, line, |_| {}),
            Statement::FunctionCall(FunctionCallStatement { head, call }) => {
                self.node(15, 0, line, |flat| {
                    flat.suffixed_with(head, |flat| flat.call(call));
                });
            }
            Statement::Assignment(AssignmentStatement { targets, values }) => {
                self.node(16, targets.len() as u64, line, |flat| {
                    for target in targets {
                        match target {
                            AssignmentTarget::Name(name) => {
                                flat.node(29, 0, 0, |flat| flat.name(name));
                            }
                            AssignmentTarget::Field(head, field) => {
                                flat.suffixed_with(head, |flat| flat.field(field));
                            }
                        }
                    }
                    flat.expressions(values);
                });
            }
        }
    }

    fn expression(&mut self, expression: &Expression<Id>) {
        self.node(17, expression.tail.len() as u64, 0, |flat| {
            match &*expression.head {
                HeadExpression::Simple(simple) => flat.simple(simple),
                HeadExpression::UnaryOperator(operator, operand) => {
                    flat.node(18, *operator as u64, 0, |flat| flat.expression(operand));
                }
            }
            for (operator, operand) in &expression.tail {
                flat.node(19, *operator as u64, 0, |flat| flat.expression(operand));
            }
        });
    }

    fn simple(&mut self, simple: &SimpleExpression<Id>) {
        match simple {
            SimpleExpression::Integer(integer) => self.leaf(20, *integer as u64),
            SimpleExpression::Float(float) => self.leaf(21, float.to_bits()),
            SimpleExpression::String(string) => self.leaf(22, string.0),
            SimpleExpression::Nil => self.leaf(23, 0),
            SimpleExpression::True => self.leaf(24, 0),
            SimpleExpression::False => self.leaf(25, 0),
            SimpleExpression::VarArgs => self.leaf(26, 0),
            SimpleExpression::TableConstructor(table) => self.table(table),
            SimpleExpression::Function(definition) => self.definition(definition),
            SimpleExpression::Suffixed(suffixed) => self.suffixed(suffixed),
        }
    }

    fn table(&mut self, table: &TableConstructor<Id>) {
        self.node(27, table.fields.len() as u64, 0, |flat| {
            for field in &table.fields {
                match field {
                    ConstructorField::Array(value) => {
                        flat.node(36, 0, 0, |flat| flat.expression(value));
                    }
                    ConstructorField::Record(RecordKey::Named(name), value) => {
                        flat.node(37, name.0, 0, |flat| flat.expression(value));
                    }
                    ConstructorField::Record(RecordKey::Indexed(key), value) => {
                        flat.node(38, 0, 0, |flat| {
                            flat.expression(key);
                            flat.expression(value);
                        });
                    }
                }
            }
        });
    }

    fn definition(&mut self, definition: &FunctionDefinition<Id>) {
        let value = 2 * definition.parameters.len() as u64 + definition.has_varargs as u64;
        self.node(28, value, 0, |flat| {
            flat.names(&definition.parameters);
            flat.block(&definition.body);
        });
    }

    fn suffixed(&mut self, suffixed: &SuffixedExpression<Id>) {
        self.node(29, suffixed.suffixes.len() as u64, 0, |flat| {
            flat.primary_and_suffixes(suffixed);
        });
    }

    /// A suffixed expression whose last suffix the parser has taken off and put elsewhere.
    fn suffixed_with(&mut self, head: &SuffixedExpression<Id>, last: impl FnOnce(&mut Self)) {
        self.node(29, head.suffixes.len() as u64 + 1, 0, |flat| {
            flat.primary_and_suffixes(head);
            last(flat);
        });
    }

    fn primary_and_suffixes(&mut self, suffixed: &SuffixedExpression<Id>) {
        match &suffixed.primary {
            PrimaryExpression::Name(name) => self.name(name),
            PrimaryExpression::GroupedExpression(group) => {
                self.node(31, 0, 0, |flat| flat.expression(group));
            }
        }
        for suffix in &suffixed.suffixes {
            match suffix {
                SuffixPart::Field(field) => self.field(field),
                SuffixPart::Call(call) => self.call(call),
            }
        }
    }

    fn field(&mut self, field: &FieldSuffix<Id>) {
        match field {
            FieldSuffix::Named(name) => self.leaf(32, name.0),
            FieldSuffix::Indexed(index) => self.node(33, 0, 0, |flat| flat.expression(index)),
        }
    }

    fn call(&mut self, call: &CallSuffix<Id>) {
        match call {
            CallSuffix::Function(arguments) => {
                self.node(34, arguments.len() as u64, 0, |flat| {
                    flat.expressions(arguments);
                });
            }
            CallSuffix::Method(name, arguments) => {
                self.node(35, name.0, 0, |flat| flat.expressions(arguments));
            }
        }
    }
}
