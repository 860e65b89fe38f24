//! V0 streams that no camera writes, and that cost a decoder most.

use super::fresh_length;
use crate::bits::Writer;
use crate::random::Random;
use crate::{Frame, Version};

/// Lengths that grow to 32 bits and stay there.
pub fn long_lengths(width: usize, height: usize) -> Frame {
    let mut random = Random::new(3);
    let mut frame = Frame::new(Version::V0, width, height);
    for row in 0..height {
        let mut writer = Writer::default();
        let mut length = fresh_length(row) as u32;
        for _ in 0..width.div_ceil(16) {
            let grows = u32::from(length < 32);
            length += grows;
            writer.put(0, 1);
            for _ in 0..4 {
                writer.put(grows, 2);
            }
            for _ in 0..16 {
                writer.put(random.number() as u32, length);
            }
        }
        frame.push_row(&writer.finish());
    }
    frame
}

/// Without a byte: each bit read is a one.
pub fn empty(width: usize, height: usize) -> Frame {
    Frame { offsets: vec![0; height], ..Frame::new(Version::V0, width, height) }
}

/// Random bytes, 8 bits a sample.
pub fn random(width: usize, height: usize) -> Frame {
    let stream = Random::new(4).bytes(width * height);
    let offsets = (0..height).map(|row| (row * width) as u32).collect();
    Frame { version: Version::V0, width, height, stream, offsets }
}
