//! Who turns V0 into V2: Razvolk, beside samsung.rs's two decoders, which read the one and the other.

use crate::measure::Contender;
use compare::convert::plain::plain;
use std::cell::RefCell;
use streams::{Frame, v0};

/// An image as V0 and as V2, and the buffers that all contenders share. They are not cleared between runs.
pub struct Converted {
    image: Vec<u16>,
    pub frame: Frame,
    stream: Vec<u8>,
    buffers: RefCell<Buffers>,
}

struct Buffers {
    samples: Vec<u16>,
    map: Vec<u8>,
    stream: Vec<u8>,
}

impl Converted {
    /// The width is a multiple of 16.
    pub fn new(image: Vec<u16>, width: usize, height: usize) -> Converted {
        let stream = plain(&image, width, height);
        let buffers =
            Buffers { samples: vec![1; image.len()], map: vec![1; image.len()], stream: vec![1; stream.len()] };
        Converted { frame: v0::encode(&image, width, height), image, stream, buffers: RefCell::new(buffers) }
    }

    /// samsung.rs's direct decoder of V0 and then its decoder of V2, with which it is compared, and the converter.
    pub fn contenders(&self) -> Vec<Contender<'_>> {
        let Converted { frame, stream, buffers, .. } = self;
        let &Frame { width, height, .. } = frame;
        let reads = move || {
            let samples = &mut buffers.borrow_mut().samples;
            let v0 = reference::decode_v0_reference(&frame.stream, &frame.offsets, width, height, samples);
            v0.is_ok() && reference::decode_v2(stream, width, height, samples).is_ok()
        };
        let converts = move || {
            let Buffers { samples, map, stream } = &mut *buffers.borrow_mut();
            razvolk::v0_to_v2(&frame.stream, &frame.offsets, width, height, samples, map, stream).is_ok()
        };
        vec![
            Contender { name: "Rust decode_v0_reference, decode_v2", against: 0, run: Box::new(reads) },
            Contender { name: "v0_to_v2", against: 0, run: Box::new(converts) },
        ]
    }

    /// Runs each contender once: both must leave the image, and the second the V2 stream.
    pub fn check(&self, contenders: &mut [Contender]) {
        for (i, contender) in contenders.iter_mut().enumerate() {
            let done = (contender.run)();
            let Buffers { samples, stream, .. } = &*self.buffers.borrow();
            assert!(
                done && *samples == self.image && (i == 0 || *stream == self.stream),
                "{} is not done, or leaves another",
                contender.name
            );
        }
    }
}
