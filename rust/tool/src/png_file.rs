//! Pictures as PNG files. What takes time is to compress them: by libdeflate where the tool is built with it, else as the png
//! crate does.

use crate::picture::Image;
use crate::worker::Memory;
#[cfg(feature = "libdeflate")]
use crate::zlib;
use png::{BitDepth, ColorType, Compression, Encoder, EncodingError, FilterType, Writer};
use std::mem;

/// The file, in greys if there is no colour in the picture.
pub fn png_file(image: Image, memory: &mut Memory) -> Result<Vec<u8>, EncodingError> {
    let grey = image.pixels.iter().all(|[red, green, blue]| red == green && green == blue);
    let mut file = mem::take(&mut memory.output);
    file.clear();
    let mut encoder = Encoder::new(&mut file, image.width as u32, image.height() as u32);
    encoder.set_color(if grey { ColorType::Grayscale } else { ColorType::Rgb });
    encoder.set_depth(BitDepth::Eight);
    encoder.set_compression(Compression::Fast);
    encoder.set_filter(FilterType::Sub);
    let mut writer = encoder.write_header()?;
    write_rows(&mut writer, &image, grey, memory)?;
    writer.finish()?;
    memory.pixels = image.pixels;
    Ok(file)
}

#[cfg(not(feature = "libdeflate"))]
fn write_rows(
    writer: &mut Writer<&mut Vec<u8>>,
    image: &Image,
    grey: bool,
    memory: &mut Memory,
) -> Result<(), EncodingError> {
    if !grey {
        return writer.write_image_data(image.pixels.as_flattened());
    }
    memory.rows.clear();
    memory.rows.extend(image.pixels.iter().map(|pixel| pixel[0]));
    writer.write_image_data(&memory.rows)
}

#[cfg(feature = "libdeflate")]
fn write_rows(
    writer: &mut Writer<&mut Vec<u8>>,
    image: &Image,
    grey: bool,
    memory: &mut Memory,
) -> Result<(), EncodingError> {
    let Memory { rows, stream, .. } = memory;
    rows.clear();
    rows.reserve(image.height() * (image.width * if grey { 1 } else { 3 } + 1));
    image.pixels.chunks_exact(image.width).for_each(|row| add_filtered(row, grey, rows));
    zlib::compress(rows, stream)?;
    writer.write_chunk(png::chunk::IDAT, stream)
}

/// Adds a row by PNG's filter Sub: the filter's number, and then each byte less that of the pixel before.
#[cfg(feature = "libdeflate")]
fn add_filtered(row: &[[u8; 3]], grey: bool, rows: &mut Vec<u8>) {
    rows.push(FilterType::Sub as u8);
    if grey {
        rows.push(row[0][0]);
        rows.extend(row[1..].iter().zip(row).map(|(pixel, before)| pixel[0].wrapping_sub(before[0])));
    } else {
        let bytes = row.as_flattened();
        rows.extend(row[0]);
        rows.extend(bytes[3..].iter().zip(bytes).map(|(byte, before)| byte.wrapping_sub(*before)));
    }
}

#[cfg(test)]
mod tests {
    use super::*;

    /// What another reader of such files finds.
    fn read_back(file: &[u8]) -> (usize, usize, ColorType, Vec<u8>) {
        let mut reader = png::Decoder::new(file).read_info().expect("a picture");
        let mut bytes = vec![0; reader.output_buffer_size()];
        let info = reader.next_frame(&mut bytes).expect("its pixels");
        (info.width as usize, info.height as usize, info.color_type, bytes)
    }

    #[test]
    fn files_come_back() {
        let mut memory = Memory::default();
        for (width, height) in [(1, 1), (1, 7), (2, 1), (3, 5), (1_000, 3), (1, 70_000), (70_000, 1)] {
            let byte = |at: usize| (at * at / 7) as u8;
            let colours: Vec<[u8; 3]> =
                (0..width * height).map(|at| [byte(at), byte(at + 1), 255 - byte(at)]).collect();
            let file = png_file(Image { width, pixels: colours.clone() }, &mut memory).expect("a file");
            assert_eq!(read_back(&file), (width, height, ColorType::Rgb, colours.as_flattened().to_vec()));
            let greys: Vec<u8> = (0..width * height).map(byte).collect();
            let pixels = greys.iter().map(|&grey| [grey; 3]).collect();
            let file = png_file(Image { width, pixels }, &mut memory).expect("a file");
            assert_eq!(read_back(&file), (width, height, ColorType::Grayscale, greys));
        }
    }
}
