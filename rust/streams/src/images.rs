//! Images of 14 bits a sample, row by row: one like a sensor's, and two drawings that can be told apart at a glance.

use crate::random::Random;

/// Like a sensor's: smooth, in four colours of different brightness, with noise, of about this standard deviation.
pub fn photo(width: usize, height: usize, noise: f64, seed: u64) -> Vec<u16> {
    let mut random = Random::new(seed);
    let wave = |at: usize, length: f64| (at as f64 / length).sin();
    let columns: Vec<f64> = (0..width).map(|x| 900.0 * wave(x, 310.0) + 60.0 * wave(x, 37.0)).collect();
    let mut image = Vec::with_capacity(width * height);
    for y in 0..height {
        let row = 4_000.0 + 1_100.0 * wave(y, 270.0) + 60.0 * wave(y, 23.0);
        for (x, column) in columns.iter().enumerate() {
            let gain = [[1.0, 1.35], [1.35, 0.8]][y % 2][x % 2];
            image.push(((row + column) * gain + noise * normal(&mut random)).clamp(0.0, 16_383.0) as u16);
        }
    }
    image
}

/// A number of mean 0 and standard deviation 1, nearly normal: four 16-bit numbers of one draw, added.
fn normal(random: &mut Random) -> f64 {
    let n = random.number();
    let sum: u64 = [0, 16, 32, 48].iter().map(|shift| n >> shift & 0xffff).sum();
    (sum as f64 / 65_536.0 - 2.0) * 3f64.sqrt()
}

/// Inside 0, outside more, by the distance from an ellipse's middle.
fn ellipse(x: f64, y: f64, middle: (f64, f64), radii: (f64, f64)) -> f64 {
    ((x - middle.0) / radii.0).powi(2) + ((y - middle.1) / radii.1).powi(2)
}

/// Draws an image: `light` gives the brightness, 0 to 1, at a place of a frame that is 1.6 wide and 1 high.
fn drawn(width: usize, height: usize, light: impl Fn(f64, f64) -> f64) -> Vec<u16> {
    let place = |i: usize| ((i % width) as f64 * 1.6 / width as f64, (i / width) as f64 / height as f64);
    (0..width * height).map(|i| (light(place(i).0, place(i).1).clamp(0.0, 1.0) * 16_000.0) as u16).collect()
}

/// Another studio's sitting: before a striped curtain.
pub fn sitting(width: usize, height: usize) -> Vec<u16> {
    drawn(width, height, |x, y| {
        if ellipse(x, y, (0.8, 0.55), (0.22, 0.3)) < 1.0 {
            return 0.85 - 0.3 * y;
        }
        let fold = (x * 10.0).fract();
        if fold < 0.5 { 0.9 } else { 0.15 + 0.2 * fold }
    })
}

/// A christening: a font before a plain wall.
pub fn christening(width: usize, height: usize) -> Vec<u16> {
    drawn(width, height, |x, y| {
        let bowl = y > 0.55 && ellipse(x, y, (0.8, 0.55), (0.42, 0.2)) < 1.0;
        let foot = y > 0.7 && (x - 0.8).abs() < 0.08;
        let window = y < 0.5 && ellipse(x, y, (0.8, 0.3), (0.1, 0.16)) < 1.0;
        match (bowl, foot, window) {
            (true, ..) => 0.75 - 0.4 * (x - 0.6).abs(),
            (_, true, _) => 0.55,
            (_, _, true) => 0.95,
            _ => 0.3 + 0.15 * y,
        }
    })
}
