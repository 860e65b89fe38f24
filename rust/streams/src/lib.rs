//! Coded frames that are made: random and damaged ones that use all that the formats have, hostile ones, and images as an
//! encoder would store them. Comparisons, timings, tests and examples take theirs from here; the same seed gives the same
//! frames everywhere. Nothing here leans on a decoder.

pub mod bits;
pub mod images;
pub mod random;
pub mod v0;
pub mod v2;

use random::Random;
use std::ops::Range;

/// The two formats.
#[derive(Clone, Copy, Debug, PartialEq, Eq)]
pub enum Version {
    V0,
    V2,
}

/// A frame as it is coded.
#[derive(Clone, Debug, PartialEq, Eq)]
pub struct Frame {
    pub version: Version,
    pub width: usize,
    pub height: usize,
    pub stream: Vec<u8>,
    /// Where each row starts in the stream. A decoder of V0 is handed them; of V2 they are known where the stream was written
    /// row by row, and only `row` needs them.
    pub offsets: Vec<u32>,
}

impl Frame {
    /// Without a byte, and without rows.
    pub fn new(version: Version, width: usize, height: usize) -> Frame {
        Frame { version, width, height, stream: Vec::new(), offsets: Vec::new() }
    }

    /// How many samples it has.
    pub fn samples(&self) -> usize {
        self.width * self.height
    }

    /// Starts a row at the stream's end.
    pub fn push_row(&mut self, bytes: &[u8]) {
        self.offsets.push(self.stream.len() as u32);
        self.stream.extend(bytes);
    }

    /// Where a row's bytes are, if rows follow one another in the stream.
    pub fn row(&self, row: usize) -> Range<usize> {
        let end = self.offsets.get(row + 1).map_or(self.stream.len(), |&next| next as usize);
        self.offsets[row] as usize..end
    }

    /// The same frame with another stream.
    pub fn with_stream(&self, stream: Vec<u8>) -> Frame {
        Frame { stream, offsets: self.offsets.clone(), ..*self }
    }

    /// Broken off after so many bytes.
    pub fn cut(&self, len: usize) -> Frame {
        self.with_stream(self.stream[..len].to_vec())
    }

    /// Broken off somewhere in a row.
    pub fn cut_in_row(&self, random: &mut Random, row: usize) -> Frame {
        let row = self.row(row);
        self.cut(row.start + random.index(row.len()))
    }

    /// With a bit turned somewhere in a row.
    pub fn damaged_in_row(&self, random: &mut Random, row: usize) -> Frame {
        let row = self.row(row);
        let mut stream = self.stream.clone();
        stream[row.start + random.index(row.len())] ^= 1 << random.below(8);
        self.with_stream(stream)
    }
}
