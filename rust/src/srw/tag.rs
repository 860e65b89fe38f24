//! The numbers that a camera's file goes by: tags of a directory's entries, types of their values, and compressions.

pub const WIDTH: u16 = 256;
pub const HEIGHT: u16 = 257;
pub const BITS: u16 = 258;
pub const COMPRESSION: u16 = 259;
pub const PHOTOMETRIC: u16 = 262;
pub const MAKE: u16 = 271;
pub const MODEL: u16 = 272;
pub const STRIP_OFFSETS: u16 = 273;
pub const ORIENTATION: u16 = 274;
pub const SAMPLES_PER_PIXEL: u16 = 277;
pub const ROWS_PER_STRIP: u16 = 278;
pub const STRIP_BYTES: u16 = 279;
pub const SOFTWARE: u16 = 305;
pub const SUB_DIRECTORIES: u16 = 330;
/// How many rows and columns the pattern of the colour filter has.
pub const COLOUR_FILTER_SIZE: u16 = 33_421;
pub const COLOUR_FILTER: u16 = 33_422;
/// V0: where the table of row offsets stands in the file. Other readers go by it in V2, too.
pub const ROW_OFFSETS: u16 = 40_976;
/// V0: how many bytes that table has.
pub const ROW_OFFSETS_BYTES: u16 = 40_977;

pub const BYTE: u16 = 1;
pub const ASCII: u16 = 2;
pub const SHORT: u16 = 3;
pub const LONG: u16 = 4;

/// Without row offsets it means a strip that is not compressed.
pub const V0: u32 = 32_770;
pub const V1: u32 = 32_772;
/// Elsewhere this is PackBits.
pub const V2: u32 = 32_773;
