//! The colour filter that lies over a sensor.

use super::tag;
use super::tiff::{Directory, Tiff};
use std::fmt;

/// A colour of the filter, by the number that it has in a file.
#[derive(Clone, Copy, Debug, PartialEq, Eq, Hash)]
#[repr(u8)]
pub enum Colour {
    /// Number 0.
    Red = 0,
    /// Number 1.
    Green = 1,
    /// Number 2.
    Blue = 2,
}

impl Colour {
    /// The colour of a number; none of a number above 2.
    ///
    /// ```
    /// use razvolk::srw::Colour;
    /// assert_eq!([Colour::of(2), Colour::of(3)], [Some(Colour::Blue), None]);
    /// ```
    pub fn of(number: u8) -> Option<Colour> {
        [Colour::Red, Colour::Green, Colour::Blue].get(usize::from(number)).copied()
    }
}

impl fmt::Display for Colour {
    fn fmt(&self, f: &mut fmt::Formatter<'_>) -> fmt::Result {
        f.write_str(match self {
            Colour::Red => "red",
            Colour::Green => "green",
            Colour::Blue => "blue",
        })
    }
}

/// The colour filter that a directory tells; none where its pattern isn't 2 by 2, or has other colours. The pattern's size may be
/// left out.
pub(super) fn filter(tiff: &Tiff, directory: Directory) -> Option<[Colour; 4]> {
    let sized = tiff.entry(directory, tag::COLOUR_FILTER_SIZE).is_some();
    if sized && tiff.numbers(directory, tag::COLOUR_FILTER_SIZE) != Some([2, 2]) {
        return None;
    }
    let colour = |number| u8::try_from(number).ok().and_then(Colour::of);
    let [a, b, c, d] = tiff.numbers(directory, tag::COLOUR_FILTER)?.map(colour);
    Some([a?, b?, c?, d?])
}
