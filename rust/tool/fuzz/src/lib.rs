//! What libFuzzer calls: all that the tool does with a file, but for reading and writing it. `make fuzz` builds this with
//! counters of the edges that a file reaches, by which libFuzzer finds its way, and with checks of overflow. libFuzzer is in C++,
//! and hands over a pointer.
#![allow(unsafe_code)]

use std::slice;

/// A panic in here ends the program, which is what libFuzzer looks for.
///
/// # Safety
///
/// `data` is good for `len` bytes.
#[unsafe(no_mangle)]
#[allow(non_snake_case)]
pub unsafe extern "C" fn LLVMFuzzerTestOneInput(data: *const u8, len: usize) -> i32 {
    // SAFETY: libFuzzer's promise; without bytes the pointer may be null.
    let file = if len == 0 { &[] } else { unsafe { slice::from_raw_parts(data, len) } };
    let _ = razvolk_tool::look::seen(file);
    0
}
