//! V0 in bands: lists of steps that are good and lists that are broken, the comparison of the entry with the plain call and with
//! samsung.rs, and a decoder that is wrong where wanted.

pub mod broken;
pub mod compare;
pub mod cut;
pub mod model;

pub use broken::Way;
pub use compare::compare;
pub use cut::{Cut, Kind};
