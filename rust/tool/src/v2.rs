//! A V0 frame as V2, in a camera's container: a file that the tool reads again.

use crate::form::Decoded;
use razvolk::srw::{Coding, Frame};
use razvolk::{most_v2_bytes, v0_to_v2};

/// Refused of a frame that is V2 already, that V2 has not the size for, or that has a sample old, missing or too bright.
pub fn file(frame: Decoded) -> Result<Vec<u8>, String> {
    let Decoded { coded, samples, width, height, model, .. } = frame;
    let Coding::V0(offsets) = &coded.coding else {
        return Err("is V2 already".into());
    };
    let (mut new, mut map) = (samples.to_vec(), vec![0; samples.len()]);
    let mut stream = vec![0; most_v2_bytes(width, height)];
    let length = v0_to_v2(coded.stream, offsets, width, height, &mut new, &mut map, &mut stream)
        .map_err(|refusal| format!("can't be written as V2: {refusal}"))?;
    let mut file = Frame::new(Coding::V2, width, height, &stream[..length]);
    (file.model, file.colour_filter, file.orientation) = (model, coded.colour_filter, coded.orientation);
    Ok(file.to_file())
}
