//! Choosing the recorded list.

pub mod edges;
pub mod features;
pub mod form;
