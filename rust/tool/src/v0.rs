//! The samples as V0, in a camera's container: a file that the tool reads again.

use crate::form::Decoded;
use razvolk::srw::{Coding, Frame};
use razvolk::{Refusal, write_v0_to_vecs};

/// Refused where a sample is above 16,383.
pub fn file(frame: Decoded) -> Result<Vec<u8>, Refusal> {
    let Decoded { coded, samples, width, height, model, .. } = frame;
    let (stream, offsets) = write_v0_to_vecs(samples, width, height)?;
    let mut file = Frame::new(Coding::V0(offsets), width, height, &stream);
    (file.model, file.colour_filter, file.orientation) = (model, coded.colour_filter, coded.orientation);
    Ok(file.to_file())
}
