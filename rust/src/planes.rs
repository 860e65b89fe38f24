//! Colour planes, for storage: equal colours lie together.

use crate::{Refusal, ffi};

/// Rearranges a frame out of `samples` into `planes`: all samples of even rows and even columns, then those of even rows and
/// odd columns, then odd and even, then odd and odd, each in reading order and without gaps. Rows and columns are counted from
/// 0; odd widths and heights are allowed. What lies past the first `width * height` of `planes` is unchanged.
///
/// # Errors
///
/// Refusals 1 and then 3, if either buffer has fewer than `width * height` samples; `planes` is unchanged then.
///
/// ```
/// let mut planes = [0; 9];
/// razvolk::to_planes(&[0, 1, 2, 10, 11, 12, 20, 21, 22], 3, 3, &mut planes)?;
/// assert_eq!(planes, [0, 2, 20, 22, 1, 21, 10, 12, 11]);
/// # Ok::<(), razvolk::Refusal>(())
/// ```
pub fn to_planes(samples: &[u16], width: usize, height: usize, planes: &mut [u16]) -> Result<(), Refusal> {
    ffi::razvolk_to_planes(samples, width, height, planes).result()
}

/// The way back of [`to_planes`]: a frame's planes into its samples. Each way undoes the other on every frame.
///
/// # Errors
///
/// Refusals 1 and then 3, if either buffer has fewer than `width * height` samples; `samples` is unchanged then.
///
/// ```
/// let mut samples = [0; 9];
/// razvolk::from_planes(&[0, 2, 20, 22, 1, 21, 10, 12, 11], 3, 3, &mut samples)?;
/// assert_eq!(samples, [0, 1, 2, 10, 11, 12, 20, 21, 22]);
/// # Ok::<(), razvolk::Refusal>(())
/// ```
pub fn from_planes(planes: &[u16], width: usize, height: usize, samples: &mut [u16]) -> Result<(), Refusal> {
    ffi::razvolk_from_planes(planes, width, height, samples).result()
}

#[cfg(test)]
mod tests {
    use super::*;

    #[test]
    fn refusals_change_nothing() {
        let refused = |width, height, read, written, refusal| {
            let from = vec![7; read];
            for call in [to_planes, from_planes] {
                let mut to = vec![9; written];
                assert_eq!(call(&from, width, height, &mut to), Err(refusal));
                assert!(to.iter().all(|&s| s == 9));
            }
        };
        refused(16_385, 0, 0, 0, Refusal::TooLarge);
        refused(0, 16_385, 0, 0, Refusal::TooLarge);
        refused(16_385, 1, 4, 4, Refusal::TooLarge);
        refused(3, 2, 5, 6, Refusal::ShortSamples);
        refused(3, 2, 6, 5, Refusal::ShortSamples);
        refused(usize::MAX, usize::MAX, 0, 0, Refusal::TooLarge);
    }

    #[test]
    fn what_lies_past_the_frame_stays() {
        let mut planes = [9; 8];
        assert_eq!(to_planes(&[0, 1, 2, 10, 11, 12, 5, 5], 3, 2, &mut planes), Ok(()));
        assert_eq!(planes, [0, 2, 1, 10, 12, 11, 9, 9]);
        let mut samples = [8; 7];
        assert_eq!(from_planes(&planes, 3, 2, &mut samples), Ok(()));
        assert_eq!(samples, [0, 1, 2, 10, 11, 12, 8]);
        for (width, height) in [(0, 0), (0, 5), (16_384, 0)] {
            assert_eq!(to_planes(&[], width, height, &mut planes), Ok(()));
            assert_eq!(planes, [0, 2, 1, 10, 12, 11, 9, 9]);
        }
    }
}
