//! The scripts the scope document marks, and the limits it names, with what each reading tells.

use crate::{reading::Reading, script};

/// Number, line, found and expected; the count follows from the tree.
#[derive(Debug, Clone, Copy, PartialEq, Eq)]
pub struct Told {
    pub number: u64,
    pub line: u64,
    pub found: u64,
    pub expected: u64,
}

pub struct Marked {
    pub name: String,
    pub stream: Vec<u64>,
    pub crate_told: Told,
    pub manual_told: Told,
    pub agreed_told: Told,
    /// The tree all readings give, in the program's form, where the document shows it whole.
    pub tree: Option<&'static str>,
}

impl Marked {
    pub fn told(&self, reading: Reading) -> Told {
        match reading {
            Reading::Crate => self.crate_told,
            Reading::Manual => self.manual_told,
            Reading::Agreed => self.agreed_told,
        }
    }
}

const ACCEPTED: Told = told(0, 0, 0, 0);
const TOO_DEEP: Told = told(5, 1, 0, 0);

const fn told(number: u64, line: u64, found: u64, expected: u64) -> Told {
    Told {
        number,
        line,
        found,
        expected,
    }
}

pub fn scripts() -> Vec<Marked> {
    let quarrel = |text, found| Marked {
        agreed_told: told(8, 1, found, 0),
        ..alike(text, ACCEPTED)
    };
    let nested = |before: &str, open: &str, middle: &str, close: &str, depth: usize| {
        format!(
            "{before} {} {middle} {}",
            open.repeat(depth),
            close.repeat(depth)
        )
    };
    let parentheses = |before, depth| nested(before, "(", "a", ")", depth);
    let blocks = |depth| nested("", "do ", "", "end ", depth);
    let told_named = |name: &str, marked: Marked| Marked {
        name: name.to_owned(),
        ..marked
    };

    vec![
        told_named(
            "empty stream, end line 4",
            Marked {
                tree: Some("01 0000000000000000 00000004 00000001\n"),
                ..alike("\n\n\n", ACCEPTED)
            },
        ),
        Marked {
            tree: Some(MINUS_X_SQUARED),
            ..alike("return -x7^2", ACCEPTED)
        },
        alike("(a) = 1", told(3, 1, 0, 0)),
        alike("f() = 1", told(3, 1, 0, 0)),
        alike("(a).b = 1", ACCEPTED),
        alike("a,\nf() = 1", told(3, 1, 0, 0)),
        alike("return 1 2", told(2, 1, 0, 0)),
        alike("return {,}", told(1, 1, 2, 61)),
        alike("goto\n\n1\n2", told(1, 4, 1, 60)),
        quarrel("return a ~= b + c", 2),
        quarrel("return a == b ~= c", 4),
        alike("return a + b ~= c * d", ACCEPTED),
        alike("return a ~= b == c", ACCEPTED),
        // From the document's list of easy ways to go astray.
        quarrel("return a ~= b * c + d", 2),
        told_named(
            "x = 197 parentheses",
            alike(&parentheses("x =", 197), ACCEPTED),
        ),
        told_named(
            "x = 198 parentheses",
            alike(&parentheses("x =", 198), TOO_DEEP),
        ),
        told_named(
            "return 198 parentheses",
            alike(&parentheses("return", 198), ACCEPTED),
        ),
        told_named(
            "return 199 parentheses",
            alike(&parentheses("return", 199), TOO_DEEP),
        ),
        told_named("do 199", alike(&blocks(199), ACCEPTED)),
        told_named("do 200", alike(&blocks(200), TOO_DEEP)),
        told_named(
            "return 197 parentheses round a ~= a + a",
            Marked {
                crate_told: ACCEPTED,
                ..alike(&nested("return", "(", "a ~= a + a", ")", 197), TOO_DEEP)
            },
        ),
    ]
}

/// A script of which all readings tell the same.
fn alike(text: &str, told: Told) -> Marked {
    Marked {
        name: text.to_owned(),
        stream: script::stream(text),
        crate_told: told,
        manual_told: told,
        agreed_told: told,
        tree: None,
    }
}

const MINUS_X_SQUARED: &str = "\
01 0000000000000001 00000001 0000000a
02 0000000000000001 00000001 00000009
11 0000000000000000 00000000 00000008
12 0000000000000001 00000000 00000007
11 0000000000000001 00000000 00000006
1d 0000000000000000 00000000 00000002
1e 0000000000000007 00000000 00000001
13 0000000000000004 00000000 00000003
11 0000000000000000 00000000 00000002
14 0000000000000002 00000000 00000001
";
