//! What a worker has: one sample buffer and a decoder, from frame to frame.

use razvolk::srw::{Coding, Frame};
use razvolk::{Decoder, MAX_SIDE, Marks, Refusal, Run};

/// The most samples that a frame may have here: more than twice as many as any camera's. A file of some bytes can't make the
/// tool ask for more memory than that.
pub const MOST_SAMPLES: usize = 1 << 26;

/// Memory that a worker's frames are read into and pictures made in, one after another. New memory takes longer to get than to
/// fill. Whoever takes one of them for a while leaves an empty one.
#[derive(Default)]
pub struct Memory {
    /// The file that is read.
    pub input: Vec<u8>,
    pub pixels: Vec<[u8; 3]>,
    /// The picture's rows, and what they are compressed to.
    pub rows: Vec<u8>,
    pub stream: Vec<u8>,
    /// The file that is written.
    pub output: Vec<u8>,
}

/// The samples start at 0.
#[derive(Default)]
pub struct Worker {
    samples: Vec<u16>,
    decoder: Decoder,
}

impl Worker {
    /// Makes the buffer long enough for a frame; none may be too large. A side above the limit needs no samples: the decoder
    /// refuses it.
    pub fn make_room(&mut self, frame: &Frame) -> Result<(), String> {
        let &Frame { width, height, .. } = frame;
        if width > MAX_SIDE || height > MAX_SIDE {
            return Ok(());
        }
        if width * height > MOST_SAMPLES {
            let text =
                format!("a frame of {width} by {height} is too large to look at: the limit is {MOST_SAMPLES} samples");
            return Err(text);
        }
        if self.samples.len() < width * height {
            self.samples.resize(width * height, 0);
        }
        Ok(())
    }

    /// Sets the samples to 0, as they were at the start.
    pub fn clear(&mut self) {
        self.samples.fill(0);
    }

    /// The buffer.
    pub fn samples(&mut self) -> &mut [u16] {
        &mut self.samples
    }

    /// Decodes a frame over what the buffer holds; a V0 frame, where only clean ones are wanted, if it is clean.
    pub fn decode(&mut self, frame: &Frame, clean: bool) -> Result<(), Refusal> {
        let Worker { samples, decoder } = self;
        let &Frame { ref coding, width, height, stream, .. } = frame;
        match coding {
            Coding::V0(offsets) if clean => decoder.decode_v0_clean(stream, offsets, width, height, samples),
            Coding::V0(offsets) => decoder.decode_v0_direct(stream, offsets, width, height, samples),
            Coding::V2 => decoder.decode_v2(stream, width, height, samples),
        }
        .map(|_| ())
    }

    /// Sets the last frame's marked samples to a fill, or to what is set if none is stated, and tells their runs.
    pub fn blank(&mut self, fill: Option<u16>) -> Vec<Run> {
        let Worker { samples, decoder } = self;
        let runs = match fill {
            Some(fill) => decoder.blank_with(fill, samples),
            None => decoder.blank(samples),
        };
        runs.expect("the frame is there")
    }

    /// The last frame's samples and marks, if it was begun.
    pub fn frame(&self) -> Option<(&[u16], Marks<'_>)> {
        self.decoder.marks().map(|marks| (&self.samples[..marks.bytes().len()], marks))
    }
}
