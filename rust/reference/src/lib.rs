//! What Razvolk is held to: samsung.rs, par.rs and error.rs, unchanged, from where they lie (see `build.rs`). What
//! they name of files that are not at hand is stood in for here; the decoders that are compared reach none of it.
// What the foreign files would be warned of is not ours to change.
#![allow(warnings)]

extern crate self as flashraw_core;

include!(concat!(env!("OUT_DIR"), "/root.rs"));

pub use error::{Error, Result};
pub use samsung::{Ph1Bits, decode_v0, decode_v0_reference, decode_v0_with, decode_v2};

/// In place of the parts of `integrity` that error.rs names.
pub mod integrity {
    use std::fmt;

    #[derive(Debug)]
    pub struct Truncation {
        pub offset: u64,
    }

    #[derive(Debug)]
    pub enum CorruptReason {
        Truncated(Truncation),
    }

    impl CorruptReason {
        pub fn truncation(&self) -> Option<&Truncation> {
            unimplemented!("not part of the reference")
        }
    }

    impl fmt::Display for Truncation {
        fn fmt(&self, _: &mut fmt::Formatter<'_>) -> fmt::Result {
            unimplemented!("not part of the reference")
        }
    }

    impl fmt::Display for CorruptReason {
        fn fmt(&self, _: &mut fmt::Formatter<'_>) -> fmt::Result {
            unimplemented!("not part of the reference")
        }
    }

    pub fn check_range(_: usize, _: crate::DataUnit, _: usize, _: usize) -> Result<(), Truncation> {
        unimplemented!("not part of the reference")
    }
}

/// In place of the type that `Error::or_truncated` takes.
pub struct DataUnit;

/// In place of the table and the decoder that V1 rests on.
pub mod nikon_huffman {
    pub struct DirectHuff;

    impl DirectHuff {
        pub fn from_direct(_: u32, _: Vec<u16>) -> DirectHuff {
            unimplemented!("V1 is not part of the reference")
        }
    }

    pub struct PredictiveParams<'a> {
        pub width: usize,
        pub rows: usize,
        pub tables: &'a [(usize, &'a DirectHuff)],
        pub vpred: [[i32; 2]; 2],
    }

    pub struct Decoded;

    impl Decoded {
        pub fn dead_row(&self) -> Option<usize> {
            unimplemented!("V1 is not part of the reference")
        }
    }

    pub fn decode_predictive(
        _: &[u8],
        _: &PredictiveParams<'_>,
        _: &mut [u16],
        _: usize,
        _: impl Fn(u32) -> u32,
    ) -> crate::Result<Decoded> {
        unimplemented!("V1 is not part of the reference")
    }
}
