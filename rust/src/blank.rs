//! Blanking: samples that don't rest on bytes of the stream only are set to a fill, and the archive export stands over that.

use crate::{Refusal, ffi};

/// What blanking did.
#[derive(Clone, Copy, Debug, PartialEq, Eq)]
pub struct Blanked {
    /// How many samples were set, those that held the fill already among them.
    pub count: usize,
    /// How many runs they make: three numbers each at the start of the list.
    pub runs: usize,
}

/// What the export did.
#[derive(Clone, Copy, Debug, PartialEq, Eq)]
pub struct Exported {
    /// What was blanked.
    pub blanked: Blanked,
    /// How many bytes of stream were written; or refusal 9 or 10, which write nothing and leave the frame blanked.
    pub written: Result<usize, Refusal>,
}

/// Sets every marked sample of a frame, decoded into the first `width * height` samples together with its map, to the nearest
/// sample to its left in the row, at a column of the same parity, that isn't marked, or to 0 if there is none; and lists the runs
/// of marked samples in reading order: row, first column and length, three numbers each. Marked is every byte that isn't 0, for
/// old values or for missing words. The map is only read; what lies past the runs in the list, and past the frame in the samples,
/// stays as it was.
///
/// After decoding, nothing of an earlier frame is left in a blanked one, and nothing made of missing words.
/// [`crate::Decoder::blank`] keeps map and list for the caller.
///
/// # Errors
///
/// Refusals 1, 3, 4, 14 (a map byte above 3) and 13 (a list shorter than three numbers for each run), in this order;
/// nothing is changed then.
///
/// ```
/// let (mut samples, mut runs) = ([7, 131, 8, 126], [9; 7]);
/// let blanked = razvolk::blank(&mut samples, &[1, 0, 2, 3], 2, 2, &mut runs)?;
/// assert_eq!((blanked.count, blanked.runs), (3, 2));
/// assert_eq!(samples, [0, 131, 0, 0]);
/// assert_eq!(runs, [0, 0, 1, 1, 0, 2, 9]);
///
/// let mut row = [10, 11, 12, 13, 14, 15];
/// razvolk::blank(&mut row, &[0, 0, 1, 1, 1, 0], 6, 1, &mut runs)?;
/// assert_eq!(row, [10, 11, 10, 11, 10, 15]);
/// # Ok::<(), razvolk::Refusal>(())
/// ```
pub fn blank(
    samples: &mut [u16],
    map: &[u8],
    width: usize,
    height: usize,
    runs: &mut [u32],
) -> Result<Blanked, Refusal> {
    ffi::razvolk_blank(samples, map, width, height, runs).result()
}

/// Sets every marked sample of a frame to a stated fill, and lists their runs as [`blank`] does.
///
/// # Errors
///
/// Those of [`blank`].
///
/// ```
/// let mut samples = [7, 131, 8, 126];
/// razvolk::blank_with(&mut samples, &[1, 0, 1, 0], 2, 2, 512, &mut [0; 6])?;
/// assert_eq!(samples, [512, 131, 512, 126]);
/// # Ok::<(), razvolk::Refusal>(())
/// ```
pub fn blank_with(
    samples: &mut [u16],
    map: &[u8],
    width: usize,
    height: usize,
    fill: u16,
    runs: &mut [u32],
) -> Result<Blanked, Refusal> {
    ffi::razvolk_blank_with(samples, map, width, height, fill, runs).result()
}

/// The archive export: blanks a frame as [`blank_with`] does with fill 0, and writes it as [`crate::write_v0`] does. What is
/// stored so holds nothing of an earlier frame, and nothing made of missing words.
///
/// # Errors
///
/// Those of [`blank`]; nothing is changed then. Refusals 9 and 10 come with what was blanked, in [`Exported::written`].
///
/// ```
/// let (mut samples, mut runs) = ([7, 131, 60_000, 126], [9; 6]);
/// let (mut stream, mut offsets) = ([9; 64], [9; 2]);
/// let map = [0, 0, 1, 0];
/// let exported = razvolk::export_v0(&mut samples, &map, 2, 2, &mut runs, &mut stream, &mut offsets)?;
/// assert_eq!((samples, exported.blanked.count), ([7, 131, 0, 126], 1));
///
/// let mut back = [1; 4];
/// razvolk::decode_v0_reference(&stream[..exported.written?], &offsets, 2, 2, &mut back)?;
/// assert_eq!(back, samples);
/// # Ok::<(), razvolk::Refusal>(())
/// ```
pub fn export_v0(
    samples: &mut [u16],
    map: &[u8],
    width: usize,
    height: usize,
    runs: &mut [u32],
    stream: &mut [u8],
    offsets: &mut [u32],
) -> Result<Exported, Refusal> {
    ffi::razvolk_export_v0(samples, map, width, height, runs, stream, offsets).result()
}

#[cfg(test)]
mod tests {
    use super::*;
    use crate::{Marks, Run};

    /// Width, height, samples lent, the map, the list's length, and the number.
    type Case<'a> = (usize, usize, usize, &'a [u8], usize, u32);

    /// A list exactly long enough, and one short; each number in its place.
    #[test]
    fn refusals_in_order_change_nothing() {
        let cases: [Case; 9] = [
            (16_385, 0, 4, &[1; 4], 6, 1),
            (2, 2, 3, &[4; 3], 0, 3),
            (2, 2, 4, &[4; 3], 0, 4),
            (2, 2, 4, &[0, 0, 0, 4], 0, 14),
            (2, 2, 4, &[1, 255, 1, 0], 9, 14),
            (2, 2, 4, &[1, 0, 1, 0], 5, 13),
            (2, 2, 4, &[2, 0, 3, 0], 6, 0),
            (2, 2, 4, &[1, 0, 1, 0], 6, 0),
            (2, 2, 4, &[1, 0, 1, 0, 77], 6, 0),
        ];
        for (width, height, lent, map, list, number) in cases {
            let (mut samples, mut runs) = (vec![7; lent], vec![9; list]);
            let answer = blank_with(&mut samples, map, width, height, 5, &mut runs);
            assert_eq!(answer.err(), Refusal::of(number, 0, 0), "{map:?}");
            if number == 0 {
                assert_eq!((samples, runs), (vec![5, 7, 5, 7], vec![0, 0, 1, 1, 0, 1]));
            } else {
                assert_eq!((samples, runs), (vec![7; lent], vec![9; list]), "refused by {number}");
            }
        }
    }

    /// What is listed is what the marks tell.
    #[test]
    fn the_list_has_the_runs_of_the_marks() {
        let map = [1, 0, 2, 3, 1, 2, 0, 3, 0, 0, 0, 0];
        let (mut samples, mut list) = ([7; 12], [9; 18]);
        let blanked = blank(&mut samples, &map, 3, 4, &mut list).expect("done");
        let runs: Vec<Run> = Marks::new(&map, 3).runs().collect();
        let told = list.chunks(3).map(|run| (run[0] as usize, run[1] as usize, run[2] as usize));
        let told: Vec<Run> = told.map(|(row, first, length)| Run { row, first, length }).take(blanked.runs).collect();
        assert_eq!((blanked.count, told), (6, runs));
        assert_eq!(samples, [0, 7, 0, 0, 0, 0, 7, 0, 7, 7, 7, 7]);
        assert_eq!(list[12..], [9; 6]);
    }

    /// The nearest unmarked sample of its parity, across marked ones, never of another row; the export states 0.
    #[test]
    fn with_no_stated_fill_the_left_neighbours_are_taken() {
        let map = [0, 0, 0, 1, 1, 1, 0, 1, 1, 0, 1, 1, 1, 0, 1, 0, 1, 1, 0, 1];
        let row: Vec<u16> = (10..30).collect();
        let (mut samples, mut runs) = (row.clone(), [0; 30]);
        blank(&mut samples, &map, 10, 2, &mut runs).expect("done");
        assert_eq!(samples, [10, 11, 12, 11, 12, 11, 16, 11, 16, 19, 0, 0, 0, 23, 0, 25, 0, 25, 28, 25]);
        let (mut stated, mut exported) = (row.clone(), row);
        blank_with(&mut stated, &map, 10, 2, 0, &mut runs).expect("done");
        export_v0(&mut exported, &map, 10, 2, &mut runs, &mut [0; 200], &mut [0; 2]).expect("done");
        assert_eq!(exported, stated);
    }

    /// 9 and 10 leave the frame blanked and write nothing.
    #[test]
    fn an_export_that_cannot_be_written_is_blanked() {
        let map = [0, 1];
        for (sample, bytes, refusal) in
            [(16_384, 99, Refusal::TooBright { begun: true }), (5, 3, Refusal::ShortOutput { begun: true })]
        {
            let (mut samples, mut runs) = ([sample, 60_000], [9; 3]);
            let (mut stream, mut offsets) = (vec![9; bytes], [9; 1]);
            let exported = export_v0(&mut samples, &map, 2, 1, &mut runs, &mut stream, &mut offsets).expect("blanked");
            assert_eq!(exported, Exported { blanked: Blanked { count: 1, runs: 1 }, written: Err(refusal) });
            assert_eq!((samples, runs), ([sample, 0], [0, 1, 1]));
            assert_eq!((stream, offsets), (vec![9; bytes], [9; 1]));
        }
        let refused = export_v0(&mut [5, 6], &[4, 0], 2, 1, &mut [], &mut [], &mut []);
        assert_eq!(refused, Err(Refusal::BadMap));
    }
}
