//! Holds Razvolk to samsung.rs, which it was ported from: both sides get the same inputs, and everything that both let a caller
//! see is compared. Inputs come from a generator with a seed (`streams`), so that a difference can be had again.
//!
//! [`call`] has Razvolk's entries. A comparison is a module whose `compare` tells what it has seen, or the first difference;
//! `main` has the table of them. The models are decoders of their own, written from the rules: they tell what samsung.rs does
//! not, and with a fault they must be found out.

pub mod bands;
pub mod blank;
pub mod call;
pub mod clean;
pub mod convert;
mod faults;
pub mod jobs;
pub mod late;
pub mod lists;
pub mod missing;
pub mod packed;
pub mod planes;
pub mod reader;
pub mod record;
pub mod refusals;
pub mod states;
pub mod uploads;
pub mod v0;
pub mod v2;
pub mod write;
