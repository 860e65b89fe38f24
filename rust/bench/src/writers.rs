//! Who writes a frame: Razvolk and a plain Rust writer, beside samsung.rs's direct decoder, which reads what they write.

use crate::measure::Contender;
use compare::write::plain::plain;
use std::cell::RefCell;
use streams::{Frame, Version};

/// An image, as it is written, and the buffers that all contenders share. They are not cleared between runs.
pub struct Written {
    image: Vec<u16>,
    pub frame: Frame,
    buffers: RefCell<Buffers>,
}

struct Buffers {
    stream: Vec<u8>,
    offsets: Vec<u32>,
    samples: Vec<u16>,
}

impl Written {
    pub fn new(image: Vec<u16>, width: usize, height: usize) -> Written {
        let (stream, offsets) = plain(&image, width, height);
        let buffers = Buffers { stream: stream.clone(), offsets: offsets.clone(), samples: vec![1; image.len()] };
        let frame = Frame { version: Version::V0, width, height, stream, offsets };
        Written { image, frame, buffers: RefCell::new(buffers) }
    }

    /// samsung.rs's direct decoder, with which all are compared, and the writers.
    pub fn contenders(&self) -> Vec<Contender<'_>> {
        let Written { image, frame, buffers } = self;
        let &Frame { width, height, .. } = frame;
        let reads = move || {
            let samples = &mut buffers.borrow_mut().samples;
            reference::decode_v0_reference(&frame.stream, &frame.offsets, width, height, samples).is_ok()
        };
        let plain = move || {
            let (stream, offsets) = plain(image, width, height);
            self.hand_out(stream, offsets)
        };
        let lent = move || {
            let Buffers { stream, offsets, .. } = &mut *buffers.borrow_mut();
            razvolk::write_v0(image, width, height, stream, offsets).is_ok()
        };
        let vectors = move || {
            let written = razvolk::write_v0_to_vecs(image, width, height);
            written.is_ok_and(|(stream, offsets)| self.hand_out(stream, offsets))
        };
        vec![
            Contender { name: "Rust decode_v0_reference reads it", against: 0, run: Box::new(reads) },
            Contender { name: "plain Rust writer", against: 0, run: Box::new(plain) },
            Contender { name: "write_v0", against: 0, run: Box::new(lent) },
            Contender { name: "write_v0_to_vecs", against: 0, run: Box::new(vectors) },
        ]
    }

    /// Puts vectors in place of the shared buffers.
    fn hand_out(&self, stream: Vec<u8>, offsets: Vec<u32>) -> bool {
        let mut buffers = self.buffers.borrow_mut();
        buffers.stream = stream;
        buffers.offsets = offsets;
        true
    }

    /// Runs each contender once: the first must leave the image, the others the frame.
    pub fn check(&self, contenders: &mut [Contender]) {
        for (i, contender) in contenders.iter_mut().enumerate() {
            let clear = |buffers: &mut Buffers| {
                buffers.stream.fill(1);
                buffers.offsets.fill(1);
                buffers.samples.fill(1);
            };
            clear(&mut self.buffers.borrow_mut());
            let done = (contender.run)();
            let Buffers { stream, offsets, samples } = &*self.buffers.borrow();
            let written = *stream == self.frame.stream && *offsets == self.frame.offsets;
            let right = if i == 0 { *samples == self.image } else { written };
            assert!(done && right, "{} is not done, or leaves another", contender.name);
        }
    }
}
