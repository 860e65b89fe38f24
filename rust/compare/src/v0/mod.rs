//! V0: the comparison of its entries with samsung.rs, and a decoder that is wrong where wanted.

pub mod compare;
pub mod model;
pub mod parse;

pub use compare::compare;
