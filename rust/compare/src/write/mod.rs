//! V0 written: the comparison of its entry with a writer of its own and with what the decoders make of it.

pub mod compare;
pub mod plain;

pub use compare::compare;
