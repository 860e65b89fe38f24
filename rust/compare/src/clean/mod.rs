//! Clean V0 frames: the verdict against a plain one, written from the rules, and a decoder that is wrong where
//! wanted. There is nothing of it in samsung.rs, which the decoders are held to.

pub mod compare;
pub mod frames;
pub mod model;

pub use compare::compare;
