//! V0 into V2: the comparison of its entry with a converter of its own, and with what the V2 decoders make of it.

pub mod compare;
pub mod plain;

pub use compare::compare;
