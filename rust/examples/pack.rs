//! What an outside optimiser does with a frame: it looks for a shorter V0 stream of the same samples, by whatever means, and
//! proposes it; `check_packed` takes it or says what is wrong. The search here is small (`streams/src/v0/pack.rs`): blocks that
//! look up, lengths that are told by the change from the block before, and rows that share their bytes.
//!
//!     cargo run --release --example pack                    a frame that is made
//!     cargo run --release --example pack IN.srw OUT.srw     a camera's V0 frame, packed

use razvolk::srw::{Coding, Frame, frame};
use razvolk::{Refusal, check_packed, decode_v0_clean, write_v0_to_vecs};
use std::error::Error;
use std::{env, fs};
use streams::images::photo;
use streams::v0::pack;

fn main() -> Result<(), Box<dyn Error>> {
    let words: Vec<String> = env::args().skip(1).collect();
    match &words[..] {
        [] => {
            let (width, height) = (640, 480);
            packed(&photo(width, height, 4.0, 1), width, height)?;
            misses()?;
        }
        [from, to] => {
            let file = fs::read(from)?;
            let coded = frame(&file)?;
            let (width, height) = (coded.width, coded.height);
            let Coding::V0(offsets) = &coded.coding else { return Err("not a V0 frame".into()) };
            let mut samples = vec![0; width * height];
            decode_v0_clean(coded.stream, offsets, width, height, &mut samples)?;
            let (stream, offsets) = packed(&samples, width, height)?;
            fs::write(to, Frame::new(Coding::V0(offsets), width, height, &stream).to_file())?;
        }
        _ => return Err("either no file, or one to read and one to write".into()),
    }
    Ok(())
}

/// Looks for a shorter stream, has it checked, and hands out what was taken.
fn packed(samples: &[u16], width: usize, height: usize) -> Result<(Vec<u8>, Vec<u32>), Refusal> {
    let (written, _) = write_v0_to_vecs(samples, width, height)?;
    let found = pack(samples, width, height);
    let mut scratch = vec![0; samples.len()];
    check_packed(&found.stream, &found.offsets, width, height, samples, &mut scratch)?;
    println!("{width} by {height}: {} bytes taken, where the writer makes {}", found.stream.len(), written.len());
    Ok((found.stream, found.offsets))
}

/// Proposals that are not taken, and why. A sample of 128 takes a block of 4 bytes.
fn misses() -> Result<(), Refusal> {
    let (stream, offsets) = write_v0_to_vecs(&[128; 3], 1, 3)?;
    let longer = [&stream[..], &[0]].concat();
    let upward = [0x00, 0x00, 0x80, 0xff];
    for (stream, offsets, meant) in [
        (&stream[..], &offsets[..], [128, 128, 129]),
        (&longer, &offsets, [128; 3]),
        (&upward, &[0; 3], [128; 3]),
        (&stream[..4], &[0, 0, 4], [128; 3]),
    ] {
        let refused = check_packed(stream, offsets, 1, 3, &meant, &mut [0; 3]).unwrap_err();
        println!("{} bytes refused by {}: {refused}", stream.len(), refused.number());
    }
    Ok(())
}
