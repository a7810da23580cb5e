//! Scripts of the grammar, every production of it.

use array_reader::kind::*;

use crate::{dress, random::Random, token::Token};

pub const UNARY_OPERATORS: [u64; 4] = [NOT, MINUS, BIT_NOT_XOR, LEN];

pub const BINARY_OPERATORS: [u64; 21] = [
    OR,
    AND,
    EQUAL,
    NOT_EQUAL,
    LESS_THAN,
    LESS_EQUAL,
    GREATER_THAN,
    GREATER_EQUAL,
    BIT_OR,
    BIT_NOT_XOR,
    BIT_AND,
    SHIFT_LEFT,
    SHIFT_RIGHT,
    CONCAT,
    ADD,
    MINUS,
    MUL,
    DIV,
    I_DIV,
    MOD,
    POW,
];

/// A whole script.
pub fn script(random: &mut Random) -> Vec<Token> {
    let depth = random.between(1, 4);
    let mut writer = Writer::new(random, Taste::PLAIN);
    writer.block(depth);
    writer.tokens
}

/// A script in which some assignments are to what cannot be assigned to.
pub fn script_with_wrong_targets(random: &mut Random) -> Vec<Token> {
    let depth = random.between(1, 2);
    let taste = Taste {
        wrong_targets: 30,
        ..Taste::PLAIN
    };
    let mut writer = Writer::new(random, taste);
    writer.block(depth);
    writer.assignment(depth);
    writer.tokens
}

/// What random productions are like.
#[derive(Clone, Copy)]
pub struct Taste {
    /// Chance in a hundred of one more binary operator after an operand.
    pub more_operators: usize,
    /// Chance in a hundred of a unary operator before an operand.
    pub unary: usize,
    /// What the binary operators are picked from.
    pub operators: &'static [u64],
    /// Chance in a hundred that a target of an assignment is a group or a call.
    pub wrong_targets: usize,
}

impl Taste {
    pub const PLAIN: Taste = Taste {
        more_operators: 25,
        unary: 12,
        operators: &BINARY_OPERATORS,
        wrong_targets: 0,
    };
}

/// Writes random productions. `depth` falls on the way in; at 0 only short forms are left.
pub struct Writer<'r> {
    pub tokens: Vec<Token>,
    random: &'r mut Random,
    taste: Taste,
}

impl<'r> Writer<'r> {
    pub fn new(random: &'r mut Random, taste: Taste) -> Self {
        Writer {
            tokens: Vec::new(),
            random,
            taste,
        }
    }

    pub fn put(&mut self, kind: u64) {
        let payload = dress::payload(kind, self.random);
        self.tokens.push(Token { kind, payload });
    }

    fn put_all(&mut self, kinds: &[u64]) {
        kinds.iter().for_each(|kind| self.put(*kind));
    }

    pub fn block(&mut self, depth: usize) {
        for _ in 0..self.random.below(if depth > 0 { 4 } else { 2 }) {
            let start = self.tokens.len();
            self.statement(depth);
            if self.tokens[start].kind == LEFT_PAREN {
                // It would be read as the arguments of what stands before it.
                self.tokens.insert(start, Token::plain(SEMI_COLON));
            }
            while self.random.percent(15) {
                self.put(SEMI_COLON);
            }
        }
        if self.random.percent(25) {
            self.put(RETURN);
            if self.random.percent(70) {
                self.expression_list(depth);
            }
            if self.random.percent(30) {
                self.put(SEMI_COLON);
            }
        }
    }

    pub fn statement(&mut self, depth: usize) {
        let inner = depth.saturating_sub(1);
        // The first eight are short whatever they hold.
        let choice = self.random.below(if depth > 0 { 20 } else { 8 });
        match choice {
            0 => self.put(SEMI_COLON),
            1 => self.put(BREAK),
            2 => self.put_all(&[GOTO, NAME]),
            3 => self.put_all(&[DOUBLE_COLON, NAME, DOUBLE_COLON]),
            4 | 5 => self.local_statement(inner),
            6 | 8 | 9 => self.call_statement(inner),
            7 | 10 | 11 => self.assignment(inner),
            12 => self.if_statement(inner),
            13 => {
                self.put(WHILE);
                self.expression(inner);
                self.loop_body(inner);
            }
            14 => self.loop_body(inner),
            15 => {
                self.put_all(&[FOR, NAME, ASSIGN]);
                self.expression(inner);
                self.put(COMMA);
                self.expression(inner);
                if self.random.percent(40) {
                    self.put(COMMA);
                    self.expression(inner);
                }
                self.loop_body(inner);
            }
            16 => {
                self.put(FOR);
                self.names();
                self.put(IN);
                self.expression_list(inner);
                self.loop_body(inner);
            }
            17 => {
                self.put(REPEAT);
                self.block(inner);
                self.put(UNTIL);
                self.expression(inner);
            }
            18 => {
                self.put_all(&[FUNCTION, NAME]);
                while self.random.percent(35) {
                    self.put_all(&[DOT, NAME]);
                }
                if self.random.percent(30) {
                    self.put_all(&[COLON, NAME]);
                }
                self.definition(inner);
            }
            _ => {
                self.put_all(&[LOCAL, FUNCTION, NAME]);
                self.definition(inner);
            }
        }
    }

    fn if_statement(&mut self, depth: usize) {
        self.put(IF);
        self.expression(depth);
        self.put(THEN);
        self.block(depth);
        while self.random.percent(35) {
            self.put(ELSE_IF);
            self.expression(depth);
            self.put(THEN);
            self.block(depth);
        }
        if self.random.percent(40) {
            self.put(ELSE);
            self.block(depth);
        }
        self.put(END);
    }

    fn loop_body(&mut self, depth: usize) {
        self.put(DO);
        self.block(depth);
        self.put(END);
    }

    fn local_statement(&mut self, depth: usize) {
        self.put(LOCAL);
        self.names();
        if self.random.percent(60) {
            self.put(ASSIGN);
            self.expression_list(depth);
        }
    }

    fn call_statement(&mut self, depth: usize) {
        self.primary(depth);
        while self.random.percent(35) {
            self.suffix(depth);
        }
        self.call(depth);
    }

    fn assignment(&mut self, depth: usize) {
        self.target(depth);
        while self.random.percent(30) {
            self.put(COMMA);
            self.target(depth);
        }
        self.put(ASSIGN);
        self.expression_list(depth);
    }

    fn target(&mut self, depth: usize) {
        if self.random.percent(self.taste.wrong_targets) {
            if self.random.percent(50) {
                self.call_statement(depth);
            } else {
                self.put_all(&[LEFT_PAREN, NAME, RIGHT_PAREN]);
            }
            return;
        }
        if self.random.percent(50) {
            self.put(NAME);
            return;
        }
        self.primary(depth);
        while self.random.percent(30) {
            self.suffix(depth);
        }
        self.field(depth);
    }

    fn names(&mut self) {
        self.put(NAME);
        while self.random.percent(35) {
            self.put_all(&[COMMA, NAME]);
        }
    }

    fn expression_list(&mut self, depth: usize) {
        self.expression(depth);
        while self.random.percent(25) {
            self.put(COMMA);
            self.expression(depth);
        }
    }

    pub fn expression(&mut self, depth: usize) {
        self.operand(depth);
        while self.random.percent(self.taste.more_operators) {
            let operator = self.random.pick(self.taste.operators);
            self.put(operator);
            self.operand(depth);
        }
    }

    fn operand(&mut self, depth: usize) {
        while self.random.percent(self.taste.unary) {
            let operator = self.random.pick(&UNARY_OPERATORS);
            self.put(operator);
        }
        let inner = depth.saturating_sub(1);
        match self.random.below(if depth > 0 { 24 } else { 12 }) {
            0 => self.put(NIL),
            1 => self.put(TRUE),
            2 => self.put(FALSE),
            3 => self.put(DOTS),
            4 | 5 => self.put(INTEGER),
            6 => self.put(FLOAT),
            7 => self.put(STRING),
            8..=15 => self.put(NAME),
            16 | 17 => self.table(inner),
            18 => {
                self.put(FUNCTION);
                self.definition(inner);
            }
            _ => {
                self.primary(inner);
                while self.random.percent(50) {
                    self.suffix(inner);
                }
            }
        }
    }

    fn primary(&mut self, depth: usize) {
        if self.random.percent(70) {
            self.put(NAME);
        } else {
            self.put(LEFT_PAREN);
            self.expression(depth);
            self.put(RIGHT_PAREN);
        }
    }

    fn suffix(&mut self, depth: usize) {
        if self.random.percent(50) {
            self.field(depth);
        } else {
            self.call(depth);
        }
    }

    fn field(&mut self, depth: usize) {
        if self.random.percent(60) {
            self.put_all(&[DOT, NAME]);
        } else {
            self.put(LEFT_BRACKET);
            self.expression(depth);
            self.put(RIGHT_BRACKET);
        }
    }

    fn call(&mut self, depth: usize) {
        if self.random.percent(30) {
            self.put_all(&[COLON, NAME]);
        }
        match self.random.below(6) {
            0 => self.put(STRING),
            1 => self.table(depth),
            2 => self.put_all(&[LEFT_PAREN, RIGHT_PAREN]),
            _ => {
                self.put(LEFT_PAREN);
                self.expression_list(depth);
                self.put(RIGHT_PAREN);
            }
        }
    }

    fn definition(&mut self, depth: usize) {
        self.put(LEFT_PAREN);
        let parameters = self.random.below(4);
        let dots = self.random.percent(30);
        for place in 0..parameters + usize::from(dots) {
            if place > 0 {
                self.put(COMMA);
            }
            self.put(if place < parameters { NAME } else { DOTS });
        }
        self.put(RIGHT_PAREN);
        self.block(depth);
        self.put(END);
    }

    fn table(&mut self, depth: usize) {
        self.put(LEFT_BRACE);
        let fields = self.random.below(4);
        for place in 0..fields {
            match self.random.below(10) {
                0..=2 => {
                    self.put_all(&[NAME, ASSIGN]);
                    self.expression(depth);
                }
                3 | 4 => {
                    self.put(LEFT_BRACKET);
                    self.expression(depth);
                    self.put_all(&[RIGHT_BRACKET, ASSIGN]);
                    self.expression(depth);
                }
                _ => self.expression(depth),
            }
            if place + 1 < fields || self.random.percent(30) {
                let separator = self.random.pick(&[COMMA, SEMI_COLON]);
                self.put(separator);
            }
        }
        self.put(RIGHT_BRACE);
    }
}
