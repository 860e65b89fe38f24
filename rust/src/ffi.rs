//! The archive's functions: each line of `exports!` below is an export of the Rattle crate `razvolk`, as its source has it,
//! and becomes a safe function of that name. No other module may be unsafe. A test of the documents (`docs/tests/interface.rs`)
//! holds these lines, and the structures that they name, to the Rattle source and to `include/razvolk.h`.
//!
//! # Safety
//!
//! A slice is handed over as its pointer and its length. It is borrowed for the call, mutably where it is written, so the
//! pointer is good for so many elements, not null, and what is written overlaps nothing else. The callee is proved to return on
//! every input, and to touch nothing but these slices, inside their lengths; it keeps none of them. What it takes and returns
//! by value are numbers, of which every value is allowed.
//!
//! That the archive is what was proved is up to `build.rs`, and to whoever sets `RAZVOLK_ARCHIVE`.

use crate::answer::{Answer, Blanked, Exported, Written};
use crate::bits::{Bits, Got};

/// Takes a function's arguments one by one and makes of each how it stands in the safe function, how C has it, and how it is
/// handed over; when none is left, the two functions.
macro_rules! export {
    ($name:ident $out:ident ($($safe:tt)*) ($($c:tt)*) ($($handed:tt)*)) => {
        #[allow(clippy::too_many_arguments)]
        pub(crate) fn $name($($safe)*) -> $out {
            unsafe extern "C" {
                fn $name($($c)*) -> $out;
            }
            // SAFETY: as above, for every function alike.
            unsafe { $name($($handed)*) }
        }
    };
    ($name:ident $out:ident ($($safe:tt)*) ($($c:tt)*) ($($handed:tt)*) $arg:ident: &mut [$t:ty], $($rest:tt)*) => {
        export!($name $out ($($safe)* $arg: &mut [$t],) ($($c)* _: *mut $t, _: usize,)
            ($($handed)* $arg.as_mut_ptr(), $arg.len(),) $($rest)*);
    };
    ($name:ident $out:ident ($($safe:tt)*) ($($c:tt)*) ($($handed:tt)*) $arg:ident: &[$t:ty], $($rest:tt)*) => {
        export!($name $out ($($safe)* $arg: &[$t],) ($($c)* _: *const $t, _: usize,)
            ($($handed)* $arg.as_ptr(), $arg.len(),) $($rest)*);
    };
    ($name:ident $out:ident ($($safe:tt)*) ($($c:tt)*) ($($handed:tt)*) $arg:ident: $t:ty, $($rest:tt)*) => {
        export!($name $out ($($safe)* $arg: $t,) ($($c)* _: $t,) ($($handed)* $arg,) $($rest)*);
    };
}

macro_rules! exports {
    ($(fn $name:ident($($args:tt)*) -> $out:ident;)*) => {
        $(export!($name $out () () () $($args)*,);)*
    };
}

exports! {
    fn razvolk_decode_v0_reference(
        src: &[u8], offsets: &[u32], width: usize, height: usize, samples: &mut [u16]) -> Answer;
    fn razvolk_decode_v0_reference_map(
        src: &[u8], offsets: &[u32], width: usize, height: usize, samples: &mut [u16], map: &mut [u8]) -> Answer;
    fn razvolk_decode_v0_clean(
        src: &[u8], offsets: &[u32], width: usize, height: usize, samples: &mut [u16]) -> Answer;
    fn razvolk_decode_v0_clean_map(
        src: &[u8], offsets: &[u32], width: usize, height: usize, samples: &mut [u16], map: &mut [u8]) -> Answer;
    fn razvolk_decode_v0(
        src: &[u8], offsets: &[u32], width: usize, height: usize, samples: &mut [u16], scratch: &mut [u8]) -> Answer;
    fn razvolk_decode_v0_bands(
        src: &[u8], offsets: &[u32], width: usize, height: usize, samples: &mut [u16], scratch: &mut [u8], bands: usize,
        block_width: usize, steps: &[u32]) -> Answer;
    fn razvolk_decode_v2(src: &[u8], width: usize, height: usize, samples: &mut [u16]) -> Answer;
    fn razvolk_decode_v2_map(
        src: &[u8], width: usize, height: usize, samples: &mut [u16], map: &mut [u8]) -> Answer;
    fn razvolk_to_planes(samples: &[u16], width: usize, height: usize, planes: &mut [u16]) -> Answer;
    fn razvolk_from_planes(planes: &[u16], width: usize, height: usize, samples: &mut [u16]) -> Answer;
    fn razvolk_write_v0(
        samples: &[u16], width: usize, height: usize, stream: &mut [u8], offsets: &mut [u32]) -> Written;
    fn razvolk_blank(samples: &mut [u16], map: &[u8], width: usize, height: usize, runs: &mut [u32]) -> Blanked;
    fn razvolk_blank_with(
        samples: &mut [u16], map: &[u8], width: usize, height: usize, fill: u16, runs: &mut [u32]) -> Blanked;
    fn razvolk_export_v0(
        samples: &mut [u16], map: &[u8], width: usize, height: usize, runs: &mut [u32], stream: &mut [u8],
        offsets: &mut [u32]) -> Exported;
    fn razvolk_v0_to_v2(
        src: &[u8], offsets: &[u32], width: usize, height: usize, samples: &mut [u16], map: &mut [u8],
        stream: &mut [u8]) -> Written;
    fn razvolk_check_packed(
        src: &[u8], offsets: &[u32], width: usize, height: usize, meant: &[u16], scratch: &mut [u16]) -> Answer;
    fn razvolk_get(src: &[u8], state: Bits, n: u32) -> Got;
    fn razvolk_reset_at(state: Bits, pos: u64) -> Bits;
}
