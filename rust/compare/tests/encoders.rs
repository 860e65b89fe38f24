//! What `streams` encodes, samsung.rs decodes to the image.

use reference::{decode_v0_reference, decode_v2};
use streams::images::photo;
use streams::{v0, v2};

#[test]
fn an_image_in_v0() {
    for (width, height) in [(100, 41), (16, 7), (333, 20), (1, 5), (2, 1)] {
        for noise in [0.0, 20.0, 2_000.0] {
            let image = photo(width, height, noise, 9);
            let frame = v0::encode(&image, width, height);
            let mut out = vec![0; width * height];
            decode_v0_reference(&frame.stream, &frame.offsets, width, height, &mut out).expect("done");
            assert!(out == image, "{width} by {height}, noise {noise}");
        }
    }
}

#[test]
fn an_image_with_a_band() {
    let (width, height, band) = (50, 12, 4);
    let image = photo(width, height, 20.0, 9);
    let frame = v0::encode::with_band(&image, width, height, band);
    let mut out = vec![7; width * height];
    decode_v0_reference(&frame.stream, &frame.offsets, width, height, &mut out).expect("done");
    assert!(out[..band * width] == vec![7; band * width], "the band carries down what the buffer held");
    assert!(out[band * width..] == image[band * width..]);
}

#[test]
fn an_image_in_v2() {
    for (width, height) in [(656, 440), (646, 436)] {
        for noise in [0.0, 90.0, 2_000.0] {
            let image = photo(width, height, noise, 9);
            let frame = v2::encode(&image, width, height);
            let mut out = image.clone();
            out.iter_mut().enumerate().filter(|(i, _)| i % width < width / 16 * 16).for_each(|(_, sample)| *sample = 0);
            decode_v2(&frame.stream, width, height, &mut out).expect("done");
            assert!(out == image, "{width} by {height}, noise {noise}: what is coded comes back, the rest stays");
        }
    }
}
