//! The pictures that the tool writes, as a person sees them.

use crate::folder::Folder;
use razvolk::srw::{Coding, Colour, Frame};
use streams::images::christening;
use streams::v0;
use streams::v0::encode::with_band;

/// The file's width, height, and pixels of red, green and blue.
fn pixels(file: &[u8]) -> (usize, usize, Vec<[u8; 3]>) {
    let mut reader = png::Decoder::new(file).read_info().expect("a picture");
    let mut bytes = vec![0; reader.output_buffer_size()];
    let info = reader.next_frame(&mut bytes).expect("its pixels");
    let pixels = match info.color_type {
        png::ColorType::Rgb => bytes.chunks(3).map(|part| [part[0], part[1], part[2]]).collect(),
        _ => bytes.iter().map(|&grey| [grey; 3]).collect(),
    };
    (info.width as usize, info.height as usize, pixels)
}

/// A file of a frame whose colour filter and orientation are told.
fn told(made: streams::Frame, orientation: u8) -> Vec<u8> {
    let mut frame = Frame::new(Coding::V0(made.offsets), made.width, made.height, &made.stream);
    frame.colour_filter = Some([Colour::Red, Colour::Green, Colour::Green, Colour::Blue]);
    frame.orientation = Some(orientation);
    frame.to_file()
}

/// The left half red, the right half blue.
fn two_colours(width: usize, height: usize) -> Vec<u16> {
    let light = |x: usize, y: usize| match (x < width / 2, y % 2, x % 2) {
        (true, 0, 0) | (false, 1, 1) => 9_000,
        (_, 0, 0) | (_, 1, 1) => 500,
        _ => 2_000,
    };
    (0..width * height).map(|at| light(at % width, at / width)).collect()
}

#[test]
fn colours_are_shown_and_turned() {
    let folder = Folder::new("colours");
    for orientation in [1, 6] {
        folder.put("a.srw", told(v0::encode(&two_colours(40, 20), 40, 20), orientation));
        assert_eq!(folder.run("a.srw --force --png a.png --to-v2 b.srw").0, 2, "a width of 40 is no multiple of 16");
        assert_eq!(folder.run("a.srw --force --png a.png --write-v0 b.srw").0, 0);
        let (width, height, shown) = pixels(&folder.get("a.png").expect("a picture"));
        let sides = if orientation == 1 { (20, 10) } else { (10, 20) };
        assert_eq!((width, height), sides);
        let red = |[red, green, blue]: [u8; 3]| red > green && red > blue;
        let blue = |[red, green, blue]: [u8; 3]| blue > green && blue > red;
        assert!(red(shown[0]) && blue(shown[shown.len() - 1]), "{:?}", shown[0]);
        // What is stored keeps its filter and its orientation.
        assert_eq!(folder.run("b.srw --force --png b.png").0, 0);
        assert!(folder.get("b.png") == folder.get("a.png"));
    }
    assert_eq!(folder.run("a.srw --full --png full.png").0, 0);
    let (width, height, shown) = pixels(&folder.get("full.png").expect("a picture"));
    assert!((width, height) == (40, 20) && shown.iter().all(|[red, green, blue]| red == green && green == blue));
}

/// A strip below says what the tint means; a line goes around what is blanked.
#[test]
fn a_legend_and_a_line() {
    let folder = Folder::new("legend");
    folder.put("clean.srw", told(v0::encode(&christening(800, 400), 800, 400), 1));
    folder.put("band.srw", told(with_band(&christening(800, 400), 800, 400, 40), 1));
    for line in [
        "clean.srw --png clean.png",
        "band.srw --png band.png",
        "band.srw --blank --png soft.png",
        "band.srw --blank --outline --png line.png",
    ] {
        folder.run(line);
    }
    let [clean, band, soft, line] =
        ["clean", "band", "soft", "line"].map(|name| pixels(&folder.get(&format!("{name}.png")).expect("a picture")));
    assert_eq!((clean.0, clean.1), (400, 200), "nothing is tinted, and no strip is there");
    assert!([&band, &soft, &line].iter().all(|picture| picture.0 == 400 && picture.1 > 205), "{}", band.1);
    let tinted = |&[red, green, blue]: &[u8; 3]| red > 120 && green == blue && red > green.saturating_add(120);
    assert!(band.2[..20 * 400].iter().all(tinted) && !band.2[21 * 400..200 * 400].iter().any(tinted));
    assert!(band.2[200 * 400..].iter().any(tinted), "the tint is in the strip");
    let yellow = |pixel: &&[u8; 3]| **pixel == [255, 212, 0];
    assert_eq!(soft.2.iter().filter(yellow).count(), 0);
    assert_eq!(line.2.iter().filter(yellow).count(), 2 * 400 + 2 * 18, "around 400 by 20 pixels");
}
