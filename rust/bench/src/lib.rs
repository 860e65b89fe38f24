//! Who is timed on a frame, and how.

pub mod blank;
pub mod contenders;
pub mod converters;
pub mod count;
pub mod measure;
pub mod planes;
pub mod writers;
