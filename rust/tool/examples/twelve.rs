//! `twelve FOLDER` writes twelve V0 frames of twenty megapixels, like photographs, for `tests/bench-tool`.

use razvolk::srw::{Coding, Colour, Frame};
use std::path::Path;
use std::{env, fs, io};
use streams::images::photo;
use streams::v0;

fn main() -> io::Result<()> {
    let folder = env::args_os().nth(1).ok_or_else(|| io::Error::other("usage: twelve FOLDER"))?;
    let (width, height) = (5_472, 3_648);
    for i in 0..12 {
        let made = v0::encode(&photo(width, height, 16.0, i), width, height);
        let mut frame = Frame::new(Coding::V0(made.offsets), width, height, &made.stream);
        frame.colour_filter = Some([Colour::Red, Colour::Green, Colour::Green, Colour::Blue]);
        fs::write(Path::new(&folder).join(format!("SAM_{i:04}.srw")), frame.to_file())?;
    }
    Ok(())
}
