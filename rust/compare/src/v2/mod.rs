//! V2: the comparison of its entries with samsung.rs, and of crops, which samsung.rs refuses, with a decoder of its own, wrong where
//! wanted.

pub mod compare;
pub mod crops;
pub mod full;
pub mod model;

pub use compare::compare;
