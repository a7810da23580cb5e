//! The three readings of the array reader, to be asked for by name.

use array_reader::Answer;

#[derive(Debug, Clone, Copy, PartialEq, Eq, Hash)]
pub enum Reading {
    Crate,
    Manual,
    Agreed,
}

impl Reading {
    pub const ALL: [Reading; 3] = [Reading::Crate, Reading::Manual, Reading::Agreed];

    pub fn name(self) -> &'static str {
        match self {
            Reading::Crate => "crate",
            Reading::Manual => "manual",
            Reading::Agreed => "agreed",
        }
    }

    pub fn read(self, stream: &[u64], nodes: &mut [u64]) -> Answer {
        match self {
            Reading::Crate => array_reader::crate_reading(stream, nodes),
            Reading::Manual => array_reader::manual_reading(stream, nodes),
            Reading::Agreed => array_reader::agreed_reading(stream, nodes),
        }
    }
}
