//! Packed by an outside optimiser: the verdict against a plain one, written from the rules, over what the writer makes, what a
//! small search finds, and near misses of each kind. There is nothing of it in samsung.rs, which the decoders are held to.

pub mod compare;
pub mod model;
pub mod proposals;

pub use compare::compare;
