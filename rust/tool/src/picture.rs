//! Pictures for people. A square of four samples is a pixel, in colour where the file tells its colour filter, balanced so that
//! the frame's mean is grey; or a sample is a grey pixel, as on the sensor. What is of another picture is tinted red, what is missing
//! blue, both violet, and a strip below says so.

use crate::form::{Decoded, Picture};
use crate::legend;
use razvolk::Marks;
use razvolk::srw::Colour;

/// Pixels of red, green and blue.
#[derive(Clone, Debug, PartialEq, Eq)]
pub struct Image {
    pub width: usize,
    pub pixels: Vec<[u8; 3]>,
}

/// An image, and the map's byte of each of its pixels, or none of them where nothing is marked.
#[derive(Clone, Debug, PartialEq, Eq)]
pub struct Marked {
    pub image: Image,
    pub marks: Vec<u8>,
}

/// The line around what is blanked.
const LINE: [u8; 3] = [255, 212, 0];

/// The picture of a frame that has samples. The memory for its pixels is lent.
pub fn picture(frame: Decoded, how: Picture, memory: Vec<[u8; 3]>) -> Image {
    let Marked { mut image, marks } = marked(frame, how, memory);
    if frame.clean {
        return image;
    }
    if !frame.blanked {
        tint(&mut image, &marks);
    } else if how.outline {
        outline(&mut image, &marks);
    }
    legend::below(image, frame)
}

/// The same without tints, and its marks: as the sensor has it, or turned as it is to be shown.
pub fn marked(frame: Decoded, how: Picture, mut memory: Vec<[u8; 3]>) -> Marked {
    let Decoded { samples, marks, clean, width, height, coded, .. } = frame;
    memory.clear();
    if how.full || width < 2 || height < 2 {
        let image = grey(samples, marks.bytes(), width, how, memory);
        return Marked { image, marks: if clean { Vec::new() } else { marks.bytes().to_vec() } };
    }
    let marks = if clean { Vec::new() } else { marks_of_squares(marks.bytes(), width) };
    Marked { image: squares(frame, how, memory), marks }.turned(coded.orientation.unwrap_or(1))
}

/// Sets the tint of each marked pixel.
fn tint(image: &mut Image, marks: &[u8]) {
    for (pixel, &mark) in image.pixels.iter_mut().zip(marks).filter(|(_, mark)| **mark != 0) {
        let [red, green, blue] = pixel.map(u16::from);
        *pixel = tinted(((red + 2 * green + blue) / 4) as u8, mark);
    }
}

/// A grey in the tint of a mark.
pub fn tinted(grey: u8, mark: u8) -> [u8; 3] {
    let (light, dark) = (128 + grey / 2, grey / 3);
    match mark {
        0 => [grey; 3],
        Marks::OLD => [light, dark, dark],
        Marks::FILLER => [dark, grey / 2, light],
        _ => [light, dark, light],
    }
}

/// Draws a line around what is marked, on its outermost pixels.
fn outline(image: &mut Image, marks: &[u8]) {
    let width = image.width;
    let is_inside = |at: Option<usize>| at.and_then(|at| marks.get(at)).is_some_and(|&mark| mark != 0);
    for (at, pixel) in image.pixels.iter_mut().enumerate().filter(|(at, _)| marks[*at] != 0) {
        let left = Some(at).filter(|at| at % width > 0).map(|at| at - 1);
        let right = Some(at + 1).filter(|at| at % width > 0);
        if ![left, right, at.checked_sub(width), Some(at + width)].into_iter().all(is_inside) {
            *pixel = LINE;
        }
    }
}

impl Image {
    /// Samples as greys, a pixel each, with tints.
    pub fn grey(samples: &[u16], marks: &[u8], width: usize, how: Picture) -> Image {
        let mut image = grey(samples, marks, width, how, Vec::new());
        tint(&mut image, marks);
        image
    }

    pub fn height(&self) -> usize {
        self.pixels.len() / self.width
    }
}

impl Marked {
    /// As it is to be shown, by TIFF's number of an orientation.
    fn turned(self, orientation: u8) -> Marked {
        let Marked { image: Image { width, pixels }, marks } = self;
        let (pixels, new) = turned(pixels, width, orientation);
        let marks = if marks.is_empty() { marks } else { turned(marks, width, orientation).0 };
        Marked { image: Image { width: new, pixels }, marks }
    }

    /// So small that no side is above the limit: each pixel is the mean of a square, marked where one of it is.
    pub fn shrunk(&self, limit: usize) -> Marked {
        let (width, height) = (self.image.width, self.image.height());
        let side = width.max(height).div_ceil(limit).max(1);
        let (mut pixels, mut marks) = (Vec::new(), Vec::new());
        for y in (0..height).step_by(side) {
            for x in (0..width).step_by(side) {
                let rows = y..height.min(y + side);
                let square = rows.flat_map(|y| (x..width.min(x + side)).map(move |x| y * width + x));
                let (mut sum, mut count, mut mark) = ([0; 3], 0, 0);
                for at in square {
                    count += 1;
                    mark |= self.marks.get(at).unwrap_or(&0);
                    sum.iter_mut().zip(self.image.pixels[at]).for_each(|(sum, part)| *sum += u32::from(part));
                }
                pixels.push(sum.map(|sum| (sum / count) as u8));
                marks.push(mark);
            }
        }
        Marked { image: Image { width: width.div_ceil(side), pixels }, marks }
    }
}

/// The cells of a picture, turned and mirrored as TIFF's number says, and their new width.
fn turned<T: Copy>(cells: Vec<T>, width: usize, orientation: u8) -> (Vec<T>, usize) {
    let height = cells.len() / width;
    let (right, low) = (width - 1, height - 1);
    let place = |x: usize, y: usize| match orientation {
        2 => (right - x, y),
        3 => (right - x, low - y),
        4 => (x, low - y),
        5 => (y, x),
        6 => (y, low - x),
        7 => (right - y, low - x),
        _ => (right - y, x),
    };
    let new = match orientation {
        2..=4 => width,
        5..=8 => height,
        _ => return (cells, width),
    };
    let places = (0..cells.len()).map(|at| place(at % new, at / new));
    (places.map(|(x, y)| cells[y * width + x]).collect(), new)
}

/// Where the colours stand in a square of four, of a filter that has one red, two greens and one blue.
#[derive(Clone, Copy)]
struct Bayer {
    red: usize,
    greens: [usize; 2],
    blue: usize,
}

impl Bayer {
    fn of(filter: [Colour; 4]) -> Option<Bayer> {
        let places = |colour| (0..4).filter(|&i| filter[i] == colour).collect::<Vec<usize>>();
        match (&places(Colour::Red)[..], &places(Colour::Green)[..], &places(Colour::Blue)[..]) {
            (&[red], &[one, other], &[blue]) => Some(Bayer { red, greens: [one, other], blue }),
            _ => None,
        }
    }

    /// The channel of each place.
    fn channels(self) -> [usize; 4] {
        std::array::from_fn(|i| {
            if i == self.red {
                0
            } else if i == self.blue {
                2
            } else {
                1
            }
        })
    }
}

/// A pixel for each square of four; the last square of an odd side goes over the one before.
fn squares(frame: Decoded, how: Picture, mut pixels: Vec<[u8; 3]>) -> Image {
    let Decoded { samples, marks, width, height, coded, .. } = frame;
    let bayer = coded.colour_filter.and_then(Bayer::of);
    let curves = curves(samples, marks.bytes(), width, bayer.map_or([1; 4], Bayer::channels), how);
    let (across, down) = (width.div_ceil(2), height.div_ceil(2));
    pixels.reserve_exact(across * down);
    for row in 0..down {
        let y = (2 * row).min(height - 2);
        let (top, low) = samples[y * width..(y + 2) * width].split_at(width);
        add_pixels([top, low], (y & 1) << 1, bayer, &curves, &mut pixels);
        if width % 2 == 1 {
            let last = [top, low].map(|row| &row[width - 2..]);
            add_pixels(last, (y & 1) << 1 | 1, bayer, &curves, &mut pixels);
        }
    }
    Image { width: across, pixels }
}

/// What is marked in each of these squares.
fn marks_of_squares(marks: &[u8], width: usize) -> Vec<u8> {
    let height = marks.len() / width;
    let of_square = |row: usize, column: usize| {
        let (x, y) = ((2 * column).min(width - 2), (2 * row).min(height - 2));
        let top = y * width + x;
        marks[top] | marks[top + 1] | marks[top + width] | marks[top + width + 1]
    };
    let rows = (0..height.div_ceil(2)).flat_map(|row| (0..width.div_ceil(2)).map(move |column| (row, column)));
    rows.map(|(row, column)| of_square(row, column)).collect()
}

/// Adds the pixels of the squares in two rows. `phase` is the place in the filter that their first sample has.
fn add_pixels(rows: [&[u16]; 2], phase: usize, bayer: Option<Bayer>, curves: &[Curve; 3], pixels: &mut Vec<[u8; 3]>) {
    let [red, green, blue] = curves.each_ref().map(|curve| &**curve);
    let [top, low] = rows.map(|row| row.as_chunks::<2>().0);
    let Some(Bayer { red: at_red, greens: [one, other], blue: at_blue }) = bayer else {
        return pixels.extend(top.iter().zip(low).map(move |(top, low)| {
            let sum: u32 = [top[0], top[1], low[0], low[1]].into_iter().map(u32::from).sum();
            [green[sum as usize / 4]; 3]
        }));
    };
    // A place is one of the two rows, and one of a pair there.
    let samples_at = |place: usize| (if (place ^ phase) & 2 == 0 { top } else { low }, (place ^ phase) & 1);
    let [(reds, r), (ones, g), (others, h), (blues, b)] = [at_red, one, other, at_blue].map(samples_at);
    let squares = reds.iter().zip(ones).zip(others).zip(blues);
    pixels.extend(squares.map(move |(((reds, ones), others), blues)| {
        let mean = (u32::from(ones[g & 1]) + u32::from(others[h & 1])).div_ceil(2);
        [red[usize::from(reds[r & 1])], green[mean as usize & 0xffff], blue[usize::from(blues[b & 1])]]
    }));
}

/// Samples as greys, a pixel each.
fn grey(samples: &[u16], marks: &[u8], width: usize, how: Picture, mut pixels: Vec<[u8; 3]>) -> Image {
    let [_, curve, _] = curves(samples, marks, width, [1; 4], how);
    pixels.extend(samples.iter().map(|&sample| [curve[usize::from(sample)]; 3]));
    Image { width, pixels }
}

/// What each sample is as a part of a pixel.
type Curve = Box<[u8; 1 << 16]>;

/// The curves of red, green and blue: each channel in proportion, so that the means are equal, and then by white and gamma.
/// `channels` tells the channel of each place in a square of four.
fn curves(samples: &[u16], marks: &[u8], width: usize, channels: [usize; 4], how: Picture) -> [Curve; 3] {
    let counts = counts(samples, marks, width, channels);
    let means = counts.each_ref().map(|counts| mean(counts));
    let brightest = means.into_iter().fold(0.0, f64::max);
    // A channel that is nearly black, as no light gives it, isn't raised without end.
    let gains = means.map(|mean| if mean > 0.0 { (brightest / mean).min(8.0) } else { 1.0 });
    let whites = gains.iter().zip(&counts).map(|(gain, counts)| gain * f64::from(exceeded_by_few(counts)));
    let white = how.white.map_or_else(|| whites.fold(0.0, f64::max), f64::from).max(1.0);
    gains.map(|gain| curve(gain / white, how.linear))
}

/// A curve: each level begins where a sample's light, in proportion or by gamma, is nearer to it than to the one before.
fn curve(gain: f64, linear: bool) -> Curve {
    let len = 1 << 16;
    let mut curve = Vec::with_capacity(len);
    for level in 0..255 {
        let light = (f64::from(level) + 0.5) / 255.0;
        let next = if linear { light } else { light.powf(2.2) } / gain;
        curve.resize((next.ceil() as usize).clamp(curve.len(), len), level);
    }
    curve.resize(len, 255);
    curve.into_boxed_slice().try_into().expect("as many as there are samples")
}

/// How often each sample stands in each channel, of those that aren't marked, or of all if all are. Of a large frame some pairs
/// of rows tell enough.
fn counts(samples: &[u16], marks: &[u8], width: usize, channels: [usize; 4]) -> [Vec<u32>; 3] {
    let step = 2 * (samples.len() >> 20).max(1);
    let rows = || samples.chunks(width).zip(marks.chunks(width)).enumerate().filter(|(row, _)| row % step < 2);
    let most = rows().map(|(_, (samples, _))| samples.iter().fold(0, |most, &sample| most.max(sample))).max();
    let mut counts = [(); 3].map(|()| vec![0; usize::from(most.unwrap_or(0)) + 1]);
    for all in [false, true] {
        for (row, (samples, marks)) in rows() {
            for (column, (&sample, &mark)) in samples.iter().zip(marks).enumerate() {
                if all || mark == 0 {
                    counts[channels[(row & 1) << 1 | column & 1]][usize::from(sample)] += 1;
                }
            }
        }
        if counts.iter().flatten().any(|&count| count > 0) {
            break;
        }
    }
    counts
}

fn mean(counts: &[u32]) -> f64 {
    let (sum, count) = counts.iter().enumerate().fold((0, 0), |(sum, count), (sample, &times)| {
        (sum + sample as u64 * u64::from(times), count + u64::from(times))
    });
    sum as f64 / count.max(1) as f64
}

/// The least sample that at most one of 200 exceeds; 0 where there is none.
fn exceeded_by_few(counts: &[u32]) -> u16 {
    let mut above = counts.iter().map(|&count| u64::from(count)).sum::<u64>() / 200;
    for (sample, &count) in counts.iter().enumerate().rev() {
        match above.checked_sub(u64::from(count)) {
            Some(rest) => above = rest,
            None => return sample as u16,
        }
    }
    0
}

#[cfg(test)]
mod tests {
    use super::*;
    use razvolk::Decoder;
    use razvolk::srw::{Coding, Frame};

    const LINEAR: Picture = Picture { white: Some(255), linear: true, full: false, outline: false };
    const GRBG: [Colour; 4] = [Colour::Green, Colour::Red, Colour::Blue, Colour::Green];

    /// Does something with a clean frame of these samples.
    fn with_frame<T>(samples: &[u16], width: usize, told: impl Fn(&mut Frame), then: impl Fn(Decoded) -> T) -> T {
        let height = samples.len() / width;
        let (stream, offsets) = razvolk::write_v0_to_vecs(samples, width, height).expect("14 bits");
        let mut coded = Frame::new(Coding::V0(offsets.clone()), width, height, &stream);
        told(&mut coded);
        let (mut decoder, mut out) = (Decoder::new(), vec![0; samples.len()]);
        let marks = decoder.decode_v0_direct(&stream, &offsets, width, height, &mut out).expect("done");
        then(Decoded {
            coded: &coded,
            samples: &out,
            marks,
            clean: marks.is_clean(),
            blanked: false,
            width,
            height,
            depth: None,
            model: None,
        })
    }

    #[test]
    fn a_square_of_four_is_a_pixel_in_its_colours() {
        let told = |frame: &mut Frame| frame.colour_filter = Some(GRBG);
        // Green 20 and 40, red 90, blue 10; the last column goes over the one before.
        let samples = [20, 90, 20, 10, 40, 10, 20, 90, 20, 10, 40, 10];
        let image = with_frame(&samples, 3, told, |frame| picture(frame, LINEAR, Vec::new()));
        assert_eq!((image.width, image.height()), (2, 2));
        // Red's mean is 90, green's 26.7 and blue's 10, which isn't raised by more than 8.
        assert_eq!(image.pixels[0], [90, 101, 80]);
        let unknown = with_frame(&samples, 3, |_| (), |frame| picture(frame, LINEAR, Vec::new()));
        assert_eq!(unknown.pixels[0], [40; 3], "grey, without a filter");
        let full = with_frame(&samples, 3, told, |frame| picture(frame, Picture { full: true, ..LINEAR }, Vec::new()));
        assert_eq!((full.width, &full.pixels[..3]), (3, &[[20; 3], [90; 3], [20; 3]][..]));
    }

    #[test]
    fn every_orientation() {
        let cells = vec![1, 2, 3, 4, 5, 6];
        let turned = |orientation| turned(cells.clone(), 3, orientation);
        assert_eq!(turned(1), (vec![1, 2, 3, 4, 5, 6], 3));
        assert_eq!(turned(2), (vec![3, 2, 1, 6, 5, 4], 3));
        assert_eq!(turned(3), (vec![6, 5, 4, 3, 2, 1], 3));
        assert_eq!(turned(4), (vec![4, 5, 6, 1, 2, 3], 3));
        assert_eq!(turned(5), (vec![1, 4, 2, 5, 3, 6], 2));
        assert_eq!(turned(6), (vec![4, 1, 5, 2, 6, 3], 2));
        assert_eq!(turned(7), (vec![6, 3, 5, 2, 4, 1], 2));
        assert_eq!(turned(8), (vec![3, 6, 2, 5, 1, 4], 2));
    }

    #[test]
    fn each_byte_of_a_map_has_a_tint_of_its_own() {
        let image = Image::grey(&[255; 4], &[0, 1, 2, 3], 4, LINEAR);
        assert_eq!(image.pixels, [[255, 255, 255], [255, 85, 85], [85, 127, 255], [255, 85, 255]]);
        let image = Image::grey(&[0; 4], &[0, 1, 2, 3], 4, LINEAR);
        assert_eq!(image.pixels, [[0, 0, 0], [128, 0, 0], [0, 0, 128], [128, 0, 128]]);
    }

    #[test]
    fn a_line_around_what_is_marked() {
        let mut image = Image { width: 5, pixels: vec![[9; 3]; 25] };
        let mut marks = vec![0; 25];
        for at in [6, 7, 8, 11, 12, 13, 16, 17, 18, 24] {
            marks[at] = 1;
        }
        outline(&mut image, &marks);
        let lined: Vec<usize> = (0..25).filter(|&at| image.pixels[at] == LINE).collect();
        assert_eq!(lined, [6, 7, 8, 11, 13, 16, 17, 18, 24]);
    }

    #[test]
    fn white_is_what_few_samples_exceed_and_light_follows_a_curve() {
        let count = |samples: &[u16]| counts(samples, &vec![0; samples.len()], samples.len(), [1; 4])[1].clone();
        let mut samples = vec![1_000; 1_000];
        samples[..5].fill(60_000);
        assert_eq!(exceeded_by_few(&count(&samples)), 1_000);
        samples[5] = 60_000;
        assert_eq!(exceeded_by_few(&count(&samples)), 60_000);
        assert_eq!((exceeded_by_few(&count(&[7])), exceeded_by_few(&count(&[65_535; 300]))), (7, 65_535));
        let how = Picture { white: Some(1_000), ..Picture::default() };
        let [_, curve, _] = curves(&[500, 2_000], &[0, 0], 2, [1; 4], how);
        assert_eq!((curve[0], curve[218], curve[1_000], curve[2_000]), (0, 128, 255, 255));
    }

    /// Another picture's light doesn't change that of the frame.
    #[test]
    fn what_is_marked_does_not_count() {
        let of = |marked: u16| {
            let [_, curve, _] = curves(&[marked, 10, 20, 30], &[1, 0, 0, 0], 4, [1; 4], Picture::default());
            curve[..31].to_vec()
        };
        assert_eq!(of(0), of(9_000));
        assert_eq!(of(9_000)[30], 255);
    }

    #[test]
    fn a_picture_is_shrunk_with_its_marks() {
        let pixels = (0..12).map(|i| [i; 3]).collect();
        let mut marks = vec![0; 12];
        marks[5] = 2;
        let small = Marked { image: Image { width: 4, pixels }, marks }.shrunk(2);
        assert_eq!((small.image.width, small.marks), (2, vec![2, 0, 0, 0]));
        assert_eq!(small.image.pixels, [[2; 3], [4; 3], [8; 3], [10; 3]]);
    }
}
