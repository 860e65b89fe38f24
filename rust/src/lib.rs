//! Samsung raw decoders, V0 and V2, proved in Rattle, that tell of every sample whether it rests on the stream, on what the
//! buffer held before, or on words that the stream lacks.
//!
//! A worker that decodes frame after frame into one buffer takes a [`Decoder`], which keeps the map:
//!
//! ```
//! // A frame of 2 by 2. The first block of row 0 predicts from a row that does not exist: its samples are skipped.
//! let stream = [0x00, 0x00, 0x00, 0x80, 0x18, 0x20, 0xa0, 0x7f, 0x00, 0x00, 0x70, 0x00];
//! let mut samples = [7, 8, 9, 10];
//! let mut decoder = razvolk::Decoder::new();
//! let marks = decoder.decode_v0_direct(&stream, &[0, 4], 2, 2, &mut samples)?;
//! assert_eq!(marks.bytes(), [1, 0, 1, 0], "the first sample of each row is what the buffer held");
//! assert_eq!(samples, [7, 131, 8, 126]);
//!
//! let refused = decoder.decode_v0_direct(&stream, &[0, 4], 16_385, 0, &mut samples).unwrap_err();
//! assert_eq!(refused.to_string(), "width or height is above 16,384");
//! # Ok::<(), razvolk::Refusal>(())
//! ```
//!
//! The functions lend every buffer by hand; they are what `include/razvolk.h` declares, made safe. Names are those of
//! `samsung.rs`, which they replace: `decode_v0_reference` is the direct V0 decoder, the one that the others are held to, and
//! not a slow one; `decode_v0` is the one in two phases, and [`decode_v0_bands`] its second phase in a scheduler's sequence.
//! All give the same samples. [`decode_v0_clean`] takes only frames with nothing inherited. [`write_v0`] writes samples as V0,
//! for storage; [`write_v0_to_vecs`] asks for the memory, too. [`blank`] sets the samples that rest on an earlier frame or on
//! missing words to what lies to their left, [`blank_with`] to a flat value, and [`export_v0`] sets them to 0 and writes the
//! frame. [`v0_to_v2`] turns a V0 frame into V2. [`check_packed`] takes a stream that another program packed, if it is no worse.
//! [`srw`] reads and writes a camera's file, and [`Ph1Bits`] is the bit reader. If you are coming from `samsung.rs`,
//! `docs/MIGRATION.md` maps each call.
#![warn(missing_docs)]

mod answer;
mod bands;
pub mod bits;
mod blank;
mod clean;
mod convert;
mod decoder;
#[allow(unsafe_code)]
mod ffi;
mod marks;
mod packed;
mod ph1bits;
mod planes;
pub mod srw;
mod v0;
mod v2;
mod write;

pub use answer::Refusal;
pub use bands::{Bands, decode_v0_bands};
pub use blank::{Blanked, Exported, blank, blank_with, export_v0};
pub use clean::{decode_v0_clean, decode_v0_clean_map};
pub use convert::{most_v2_bytes, v0_to_v2};
pub use decoder::{Decoder, MAX_SIDE};
pub use marks::{Marks, Run};
pub use packed::check_packed;
pub use ph1bits::Ph1Bits;
pub use planes::{from_planes, to_planes};
pub use v0::{decode_v0, decode_v0_reference, decode_v0_reference_map, scratch_len};
pub use v2::{decode_v2, decode_v2_map};
pub use write::{most_v0_bytes, write_v0, write_v0_to_vecs};

/// The examples of the migration page are run with the others.
#[cfg(doctest)]
#[doc = include_str!("../../docs/MIGRATION.md")]
struct Migration;
