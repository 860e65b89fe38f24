//! V0 in two phases, the second in bands of rows and blocks of columns, in whichever sequence a scheduler picks.

use crate::{MAX_SIDE, Refusal, ffi};
use std::ops::Range;

/// Decodes as [`crate::decode_v0`] does, with phase two done block by block in the sequence of `steps`. The samples are the
/// same whatever the sequence, and so is what `scratch` holds afterwards.
///
/// Rows 2 on are cut into `bands` bands, and each band into blocks of `block_width` columns; a step is band times blocks in a
/// band plus block. A step is ready if it is not done, and the block to its left and the same block in the band above are.
/// [`Bands`] works the numbers out, and has sequences to pick from.
///
/// # Errors
///
/// Refusals 1, 3, 4, 11 and 12, in this order; `out` and `scratch` are unchanged then.
///
/// ```
/// use razvolk::{Bands, decode_v0_bands};
///
/// let (width, height) = (40, 9);
/// let bands = Bands::new(width, height, 3, 16).expect("7 rows can be cut into 3 bands");
/// let steps: Vec<u32> = bands.by_diagonals().collect();
/// let (mut samples, mut scratch) = (vec![7; width * height], vec![0; razvolk::scratch_len(width, height)]);
/// decode_v0_bands(&[], &[0; 9], width, height, &mut samples, &mut scratch, 3, 16, &steps)?;
///
/// let refused = decode_v0_bands(&[], &[0; 9], width, height, &mut samples, &mut scratch, 3, 16, &steps[1..]).unwrap_err();
/// assert_eq!(refused, razvolk::Refusal::BadSteps, "a step is missing");
/// # Ok::<(), razvolk::Refusal>(())
/// ```
#[allow(clippy::too_many_arguments)]
pub fn decode_v0_bands(
    src: &[u8],
    row_offsets: &[u32],
    width: usize,
    height: usize,
    out: &mut [u16],
    scratch: &mut [u8],
    bands: usize,
    block_width: usize,
    steps: &[u32],
) -> Result<(), Refusal> {
    ffi::razvolk_decode_v0_bands(src, row_offsets, width, height, out, scratch, bands, block_width, steps).result()
}

/// How a V0 frame is cut for [`decode_v0_bands`]: rows 2 on into bands, columns into blocks.
///
/// A scheduler's list, in which the lowest band that is ready always goes on:
///
/// ```
/// use razvolk::{Bands, decode_v0, decode_v0_bands, scratch_len};
/// # let (width, height, stream) = (40, 9, vec![0x35; 900]);
/// # let offsets: Vec<u32> = (0..9).map(|row| row * 90).collect();
///
/// let bands = Bands::new(width, height, 3, 16).expect("a frame that can be cut so");
/// let (mut steps, mut done) = (Vec::new(), vec![0; bands.count()]);
/// while let Some((band, block)) = bands.ready(&done).last() {
///     steps.extend(bands.step(band, block));
///     done[band] += 1;
/// }
/// assert_eq!(steps, [0, 3, 6, 1, 4, 7, 2, 5, 8]);
///
/// let (mut samples, mut scratch) = (vec![7; width * height], vec![0; scratch_len(width, height)]);
/// decode_v0_bands(
///     &stream, &offsets, width, height, &mut samples, &mut scratch, bands.count(), bands.block_width(), &steps,
/// )?;
///
/// let mut plain = vec![7; width * height];
/// decode_v0(&stream, &offsets, width, height, &mut plain, &mut scratch)?;
/// assert_eq!(samples, plain, "as every sequence in which each step is ready");
/// # Ok::<(), razvolk::Refusal>(())
/// ```
#[derive(Clone, Copy, Debug, PartialEq, Eq, Hash)]
pub struct Bands {
    width: usize,
    height: usize,
    count: usize,
    block_width: usize,
}

impl Bands {
    /// The most bands that any frame can be cut into.
    pub const MOST: usize = 64;

    /// The most bands that a frame of so many rows can be cut into: two rows from row 2 on for each, and at least 1.
    ///
    /// ```
    /// use razvolk::Bands;
    /// assert_eq!([0, 5, 6, 3_500].map(Bands::most), [1, 1, 2, 64]);
    /// ```
    pub const fn most(height: usize) -> usize {
        match height.saturating_sub(2) / 2 {
            0 => 1,
            most if most < Bands::MOST => most,
            _ => Bands::MOST,
        }
    }

    /// A frame cut into `bands` bands, with blocks of `block_width` columns, which may be more than the frame has. `None` if it
    /// can't be cut so, refusals 1 and 11: `bands` is 1 up to [`Bands::most`], `block_width` a multiple of 16 and not 0.
    ///
    /// ```
    /// use razvolk::Bands;
    /// assert!(Bands::new(5_000, 3_500, 8, 256).is_some());
    /// assert!(Bands::new(5_000, 3_500, 8, 250).is_none());
    /// assert!(Bands::new(5_000, 17, 8, 256).is_none(), "15 rows are 7 bands at most");
    /// ```
    pub const fn new(width: usize, height: usize, bands: usize, block_width: usize) -> Option<Bands> {
        let size = width <= MAX_SIDE && height <= MAX_SIDE;
        if size && 0 < bands && bands <= Bands::most(height) && 0 < block_width && block_width.is_multiple_of(16) {
            return Some(Bands { width, height, count: bands, block_width });
        }
        None
    }

    /// The frame cut as samsung.rs cuts it for so many threads, at most 64: a band for each where it has the rows, and about four
    /// blocks in a band for each, of at least 256 columns. `None` if the frame is larger than [`MAX_SIDE`].
    ///
    /// ```
    /// let bands = razvolk::Bands::for_threads(5_000, 3_500, 8).expect("within the limits");
    /// assert_eq!((bands.count(), bands.block_width(), bands.blocks()), (8, 256, 20));
    /// ```
    pub fn for_threads(width: usize, height: usize, threads: usize) -> Option<Bands> {
        let threads = threads.clamp(1, Bands::MOST);
        let block_width = width.div_ceil(16).div_ceil(4 * threads).max(16) * 16;
        Bands::new(width, height, threads.min(Bands::most(height)), block_width)
    }

    /// How many bands there are.
    pub const fn count(self) -> usize {
        self.count
    }

    /// How many columns a block has; the last one of a band has what remains.
    pub const fn block_width(self) -> usize {
        self.block_width
    }

    /// How many blocks a band has: none if the frame has no columns, or no rows from row 2 on.
    pub const fn blocks(self) -> usize {
        if self.height > 2 { self.width.div_ceil(self.block_width) } else { 0 }
    }

    /// How many steps do the frame: each list for it has this length.
    ///
    /// ```
    /// let bands = razvolk::Bands::new(5_000, 3_500, 8, 256).expect("a frame that can be cut so");
    /// assert_eq!(bands.steps(), 8 * 20);
    /// ```
    pub const fn steps(self) -> usize {
        self.count * self.blocks()
    }

    /// A band's rows, as the frame counts them; none past the last band.
    ///
    /// ```
    /// let bands = razvolk::Bands::new(40, 9, 3, 16).expect("a frame that can be cut so");
    /// assert_eq!([0, 1, 2].map(|band| bands.rows(band)), [2..4, 4..6, 6..9]);
    /// ```
    pub const fn rows(self, band: usize) -> Range<usize> {
        let late = self.height.saturating_sub(2);
        if band >= self.count {
            return self.height..self.height;
        }
        2 + band * late / self.count..2 + (band + 1) * late / self.count
    }

    /// A block's columns; none past the last block.
    ///
    /// ```
    /// let bands = razvolk::Bands::new(40, 9, 3, 16).expect("a frame that can be cut so");
    /// assert_eq!([0, 1, 2].map(|block| bands.columns(block)), [0..16, 16..32, 32..40]);
    /// ```
    pub fn columns(self, block: usize) -> Range<usize> {
        let edge = |block: usize| block.saturating_mul(self.block_width).min(self.width);
        edge(block)..edge(block.saturating_add(1))
    }

    /// The number of a step, if there is such a block.
    ///
    /// ```
    /// let bands = razvolk::Bands::new(40, 9, 3, 16).expect("a frame that can be cut so");
    /// assert_eq!([bands.step(1, 2), bands.step(1, 3), bands.step(3, 0)], [Some(5), None, None]);
    /// ```
    pub const fn step(self, band: usize, block: usize) -> Option<u32> {
        if band < self.count && block < self.blocks() { Some((band * self.blocks() + block) as u32) } else { None }
    }

    /// The bands and blocks that are ready where so many blocks of each band are done, from the top band down. While blocks
    /// remain there is one.
    ///
    /// ```
    /// let bands = razvolk::Bands::new(40, 9, 3, 16).expect("a frame that can be cut so");
    /// assert!(bands.ready(&[2, 1, 1]).eq([(0, 2), (1, 1)]), "block 1 of band 2 waits for the one above");
    /// assert!(bands.ready(&[3, 3, 3]).next().is_none());
    /// ```
    pub fn ready(self, done: &[usize]) -> impl Iterator<Item = (usize, usize)> {
        let above = [usize::MAX].into_iter().chain(done.iter().copied());
        let next = done.iter().copied().zip(above).enumerate().take(self.count);
        next.filter(move |&(_, (block, above))| block < self.blocks() && block < above)
            .map(|(k, (block, _))| (k, block))
    }

    /// Every step, band by band.
    ///
    /// ```
    /// let bands = razvolk::Bands::new(40, 9, 2, 16).expect("a frame that can be cut so");
    /// assert!(bands.by_bands().eq([0, 1, 2, 3, 4, 5]));
    /// ```
    pub fn by_bands(self) -> impl Iterator<Item = u32> {
        0..self.steps() as u32
    }

    /// Every step, column of blocks by column of blocks.
    ///
    /// ```
    /// let bands = razvolk::Bands::new(40, 9, 2, 16).expect("a frame that can be cut so");
    /// assert!(bands.by_columns().eq([0, 3, 1, 4, 2, 5]));
    /// ```
    pub fn by_columns(self) -> impl Iterator<Item = u32> {
        (0..self.blocks()).flat_map(move |block| (0..self.count).filter_map(move |band| self.step(band, block)))
    }

    /// Every step, one diagonal after another, from the top band down: those of a diagonal don't wait for each other.
    ///
    /// ```
    /// let bands = razvolk::Bands::new(40, 9, 2, 16).expect("a frame that can be cut so");
    /// assert!(bands.by_diagonals().eq([0, 1, 3, 2, 4, 5]));
    /// ```
    pub fn by_diagonals(self) -> impl Iterator<Item = u32> {
        let in_diagonal = move |d| (0..self.count.min(d + 1)).filter_map(move |band| self.step(band, d - band));
        (0..self.count + self.blocks()).flat_map(in_diagonal)
    }
}

#[cfg(test)]
mod tests {
    use super::*;

    /// Cuts of every height to 40 and of widths about the edges of blocks, and some at the limits.
    fn cuts() -> impl Iterator<Item = Bands> {
        let sizes = (0..=40).flat_map(|height| [0, 1, 15, 16, 17, 32, 33, 100].map(|width| (width, height)));
        let all = sizes.chain([(16_384, 16_384), (16_384, 3), (1, 16_384), (5_000, 3_500)]);
        all.flat_map(|(width, height)| {
            let counts = 1..=Bands::most(height);
            counts.flat_map(move |k| [16, 32, 112, 16_384, usize::MAX - 15].map(|b| Bands::new(width, height, k, b)))
        })
        .flatten()
    }

    #[test]
    fn bands_and_blocks_cover_the_frame_once() {
        for bands in cuts() {
            let Bands { width, height, .. } = bands;
            let rows = (0..bands.count()).flat_map(|band| bands.rows(band));
            assert!(rows.eq(2..height), "{bands:?}");
            assert!((0..bands.count()).all(|band| height < 4 || bands.rows(band).len() > 1), "{bands:?}");
            assert_eq!(bands.steps(), bands.count() * bands.blocks());
            if height > 2 {
                assert!((0..bands.blocks()).flat_map(|block| bands.columns(block)).eq(0..width), "{bands:?}");
                assert!((0..bands.blocks()).all(|block| !bands.columns(block).is_empty()), "{bands:?}");
            }
            assert!(
                bands.rows(bands.count()).is_empty() && bands.columns(bands.blocks().max(1)).is_empty() || height < 3
            );
        }
    }

    #[test]
    fn each_sequence_does_each_step_once_and_ready() {
        for bands in cuts().filter(|bands| bands.height < 41) {
            let all =
                [bands.by_bands().collect::<Vec<u32>>(), bands.by_columns().collect(), bands.by_diagonals().collect()];
            for steps in all {
                let mut done = vec![0; bands.count()];
                for &step in &steps {
                    let place = bands.ready(&done).find(|&(band, block)| bands.step(band, block) == Some(step));
                    done[place.unwrap_or_else(|| panic!("{bands:?}: {step} is not ready in {steps:?}")).0] += 1;
                }
                assert_eq!(steps.len(), bands.steps());
                assert!(bands.ready(&done).next().is_none());
            }
        }
    }

    #[test]
    fn what_can_not_be_cut_is_refused_by_1_or_11() {
        let (mut out, mut scratch) = ([7; 400], [9; 30]);
        let mut numbers = [0; 13];
        for (width, height) in
            [(0, 0), (3, 1), (17, 2), (17, 5), (17, 6), (40, 9), (0, 16_384), (16_385, 0), (0, usize::MAX)]
        {
            for bands in [0, 1, 2, 3, 4, 63, 64, 65, usize::MAX] {
                for block_width in [0, 1, 8, 15, 16, 17, 24, 32, usize::MAX, usize::MAX - 15] {
                    let cut = Bands::new(width, height, bands, block_width);
                    let steps: Vec<u32> = cut.into_iter().flat_map(Bands::by_bands).collect();
                    let offsets = vec![0; height.min(16_384)];
                    let answer = decode_v0_bands(
                        &[],
                        &offsets,
                        width,
                        height,
                        &mut out,
                        &mut scratch,
                        bands,
                        block_width,
                        &steps,
                    );
                    let number = answer.err().map_or(0, Refusal::number);
                    assert_eq!(cut.is_some(), number == 0, "{width} by {height}, {bands}, {block_width}: {number}");
                    numbers[number as usize] += 1;
                }
            }
        }
        assert!(numbers[0] > 20 && numbers[1] > 20 && numbers[11] > 20, "{numbers:?}");
        assert_eq!(numbers.iter().sum::<u32>(), numbers[0] + numbers[1] + numbers[11]);
    }

    #[test]
    fn a_wrong_list_is_refused_and_changes_nothing() {
        let (width, height) = (40, 9);
        let bands = Bands::new(width, height, 3, 16).expect("7 rows are 3 bands");
        let good: Vec<u32> = bands.by_columns().collect();
        let swapped = |one: usize, other: usize| {
            let mut steps = good.clone();
            steps.swap(one, other);
            steps
        };
        let wrong = [
            good[1..].to_vec(),
            good[..8].to_vec(),
            [&good[..], &[8]].concat(),
            swapped(0, 1),
            swapped(0, 3),
            [&good[..8], &[7]].concat(),
            [&good[..8], &[9]].concat(),
            [&good[..8], &[u32::MAX]].concat(),
            Vec::new(),
        ];
        for steps in wrong {
            let (mut out, mut scratch) = ([7; 360], [9; 21]);
            let refused =
                decode_v0_bands(&[], &[0; 9], width, height, &mut out, &mut scratch, 3, 16, &steps).unwrap_err();
            assert_eq!(refused, Refusal::BadSteps, "{steps:?}");
            assert!(out == [7; 360] && scratch == [9; 21], "{steps:?}");
        }
    }

    #[test]
    fn threads_cut_as_samsung_rs_does() {
        for (width, height, threads, expected) in [
            (5_000, 3_500, 1, (1, 1_264)),
            (5_000, 3_500, 2, (2, 640)),
            (5_000, 3_500, 16, (16, 256)),
            (16_384, 16_384, 1_000, (64, 256)),
            (100, 7, 8, (2, 256)),
            (0, 0, 0, (1, 256)),
        ] {
            let bands = Bands::for_threads(width, height, threads).expect("within the limits");
            assert_eq!((bands.count(), bands.block_width()), expected, "{width} by {height}, {threads} threads");
        }
        assert_eq!(Bands::for_threads(16_385, 1, 4), None);
        assert_eq!(Bands::for_threads(usize::MAX, usize::MAX, usize::MAX), None);
    }
}
