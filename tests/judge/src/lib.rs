//! Tells right from wrong in readings of token streams: generates streams, reads them with the
//! array reader and with piccolo's own parser, and holds the readings to the rules.

#![forbid(unsafe_code)]

pub mod dress;
pub mod examine;
pub mod generate;
pub mod malformed;
pub mod manual_parse;
pub mod marked;
pub mod operator_walk;
pub mod program_form;
pub mod quarrel;
pub mod random;
pub mod reading;
pub mod record;
pub mod script;
pub mod tally;
pub mod token;
