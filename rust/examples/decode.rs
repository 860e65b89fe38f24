//! Decodes a V0 frame of 2 by 2 over an old buffer, and prints its rows, with a star at each sample that rests on what the
//! buffer held before, or on words that the stream lacks: what `examples/decode.c` does in C.

use razvolk::{Decoder, Refusal};

const WIDTH: usize = 2;
const HEIGHT: usize = 2;

fn main() -> Result<(), Refusal> {
    let stream = [0x00, 0x00, 0x00, 0x80, 0x18, 0x20, 0xa0, 0x7f, 0x00, 0x00, 0x70, 0x00];
    let mut samples = [0; WIDTH * HEIGHT]; // what a worker decoded before
    let mut decoder = Decoder::new();
    let marks = decoder.decode_v0_direct(&stream, &[0, 4], WIDTH, HEIGHT, &mut samples)?;
    println!("done, {} words missing", marks.filler_words());
    for (row, (samples, marks)) in samples.chunks(WIDTH).zip(marks.bytes().chunks(WIDTH)).enumerate() {
        print!("{row}:");
        for (sample, mark) in samples.iter().zip(marks) {
            print!(" {sample}{}", if *mark == 0 { "" } else { "*" });
        }
        println!();
    }
    Ok(())
}
