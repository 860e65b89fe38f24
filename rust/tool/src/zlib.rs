//! A zlib stream by libdeflate, a C library. The tool has no other unsafe code.

use std::ffi::{c_int, c_void};
use std::io::{self, ErrorKind};
use std::ptr::NonNull;

/// libdeflate's fastest level that compresses.
const LEVEL: c_int = 1;

/// What only libdeflate looks into.
#[repr(C)]
struct Opaque([u8; 0]);

// As libdeflate.h declares them, in every version from 1.0 on.
unsafe extern "C" {
    fn libdeflate_alloc_compressor(level: c_int) -> *mut Opaque;
    fn libdeflate_zlib_compress_bound(compressor: *mut Opaque, len: usize) -> usize;
    fn libdeflate_zlib_compress(
        compressor: *mut Opaque,
        bytes: *const c_void,
        len: usize,
        to: *mut c_void,
        room: usize,
    ) -> usize;
    fn libdeflate_free_compressor(compressor: *mut Opaque);
}

/// Makes `stream` the zlib stream of the bytes. An error says that there is no memory.
pub fn compress(bytes: &[u8], stream: &mut Vec<u8>) -> io::Result<()> {
    let mut compressor = Compressor::new()?;
    let most = compressor.most(bytes.len());
    compressor.compress(bytes, most, stream)
}

struct Compressor(NonNull<Opaque>);

impl Compressor {
    fn new() -> io::Result<Compressor> {
        // SAFETY: it takes every number, and answers null where it has no memory.
        let made = unsafe { libdeflate_alloc_compressor(LEVEL) };
        NonNull::new(made).map(Compressor).ok_or_else(|| ErrorKind::OutOfMemory.into())
    }

    /// How long the stream of so many bytes can be.
    fn most(&mut self, len: usize) -> usize {
        // SAFETY: the compressor is one that was made, and not freed yet.
        unsafe { libdeflate_zlib_compress_bound(self.0.as_ptr(), len) }
    }

    /// Makes `stream` the bytes' own, in memory for `room` bytes. An error says that it is longer, or that there is no memory.
    fn compress(&mut self, bytes: &[u8], room: usize, stream: &mut Vec<u8>) -> io::Result<()> {
        stream.clear();
        stream.try_reserve_exact(room)?;
        let to = stream.spare_capacity_mut().as_mut_ptr().cast();
        // SAFETY: the compressor is one that was made. It reads as many bytes as there are, and writes at most `room`, for which
        // the vector has memory that nothing else uses.
        let len = unsafe { libdeflate_zlib_compress(self.0.as_ptr(), bytes.as_ptr().cast(), bytes.len(), to, room) };
        if len == 0 {
            return Err(io::Error::other("a zlib stream is longer than the memory for it"));
        }
        // SAFETY: so many bytes, at most `room`, were written.
        unsafe { stream.set_len(len) };
        Ok(())
    }
}

impl Drop for Compressor {
    fn drop(&mut self) {
        // SAFETY: the compressor is one that was made, and nothing uses it from now on.
        unsafe { libdeflate_free_compressor(self.0.as_ptr()) }
    }
}

#[cfg(test)]
mod tests {
    use super::*;
    use flate2::read::ZlibDecoder;
    use std::io::Read;
    use std::iter;

    /// Bytes like those of chance, which no level makes shorter.
    fn noise(len: usize) -> Vec<u8> {
        let next = |number: &u32| Some(number.wrapping_mul(1_664_525).wrapping_add(1_013_904_223));
        iter::successors(Some(1), next).map(|number| (number >> 24) as u8).take(len).collect()
    }

    #[test]
    fn streams_of_every_size_come_back() {
        let mut stream = Vec::new();
        for len in (0..300).chain([4_095, 4_096, 65_535, 65_536, 65_537, 300_000, 3_000_001]) {
            for bytes in [vec![0; len], noise(len)] {
                compress(&bytes, &mut stream).expect("memory");
                let mut back = Vec::new();
                ZlibDecoder::new(&stream[..]).read_to_end(&mut back).expect("a zlib stream");
                assert!(back == bytes, "{len} bytes");
            }
        }
    }

    #[test]
    fn too_little_room_is_an_error() {
        let (mut compressor, mut stream) = (Compressor::new().expect("memory"), Vec::new());
        for (bytes, least) in [(Vec::new(), 6), (noise(1), 7), (noise(70_000), 70_000), (vec![0; 70_000], 20)] {
            for room in [0, 1, least / 2, least - 1] {
                assert!(
                    compressor.compress(&bytes, room, &mut stream).is_err(),
                    "{} bytes, room for {room}",
                    bytes.len()
                );
            }
            let most = compressor.most(bytes.len());
            compressor.compress(&bytes, most, &mut stream).expect("room");
            assert!((least..=most).contains(&stream.len()));
        }
        assert!(compressor.compress(&[], usize::MAX, &mut stream).is_err(), "no machine has so much memory");
    }
}
