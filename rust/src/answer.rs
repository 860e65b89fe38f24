//! What a decoder, a writer or a call that blanks answers.

use std::{error, fmt};

/// The answer as it comes from the archive: number 0 is done, and `filler` is how many words were missing.
#[repr(C)]
#[derive(Clone, Copy)]
pub(crate) struct Answer {
    number: u32,
    row: u32,
    filler: u64,
}

impl Answer {
    pub(crate) fn result(self) -> Result<(), Refusal> {
        self.counted().map(|_| ())
    }

    /// With the count, which both done and a refusal carry.
    pub(crate) fn counted(self) -> Result<u64, Refusal> {
        Refusal::of(self.number, self.row, self.filler).map_or(Ok(self.filler), Err)
    }
}

/// A writer's answer: how many bytes of stream it has written, 0 unless it is done.
#[repr(C)]
#[derive(Clone, Copy)]
pub(crate) struct Written {
    answer: Answer,
    length: u64,
}

impl Written {
    /// How many bytes were written.
    pub(crate) fn result(self) -> Result<usize, Refusal> {
        // The archive is for x86-64 alone.
        self.answer.result().map(|()| self.length as usize)
    }
}

/// What a call that blanks answers: how many samples it has set, and how many runs they make, both 0 unless it is done.
#[repr(C)]
#[derive(Clone, Copy)]
pub(crate) struct Blanked {
    answer: Answer,
    count: u64,
    runs: u64,
}

impl Blanked {
    pub(crate) fn result(self) -> Result<crate::Blanked, Refusal> {
        self.answer.result().map(|()| crate::Blanked { count: self.count as usize, runs: self.runs as usize })
    }
}

/// What the export answers: what blanking did, whatever the writer then said, and how many bytes of stream are written.
#[repr(C)]
#[derive(Clone, Copy)]
pub(crate) struct Exported {
    answer: Answer,
    count: u64,
    runs: u64,
    length: u64,
}

impl Exported {
    pub(crate) fn result(self) -> Result<crate::Exported, Refusal> {
        let written = self.answer.result().map(|()| self.length as usize);
        match written {
            // The writer's own refusals come after blanking.
            Err(refusal) if !matches!(refusal, Refusal::TooBright { .. } | Refusal::ShortOutput { .. }) => Err(refusal),
            _ => {
                let blanked = crate::Blanked { count: self.count as usize, runs: self.runs as usize };
                Ok(crate::Exported { blanked, written })
            }
        }
    }
}

/// Makes [`Refusal`] of one list: each line has the number, the name, the row and the count where there are such, `[begun]` where
/// the number alone doesn't tell whether a buffer was changed before, and the text.
macro_rules! refusals {
    ($(#[$doc:meta])*
    $($number:literal $name:ident $({ $row:ident $(, $filler:ident)? })? $([$begun:ident])? $text:literal;)*) => {
        $(#[$doc])*
        #[derive(Clone, Copy, Debug, PartialEq, Eq, Hash)]
        #[non_exhaustive]
        pub enum Refusal {
            $(
                #[doc = concat!("Number ", $number, ".")]
                $name $({
                    /// The row at fault.
                    $row: u32,
                    $(
                        /// How many words were missing up to the refusal.
                        $filler: u64,
                    )?
                })? $({
                    /// Whether the call had changed the frame before: [`crate::export_v0`] has blanked it, and
                    /// [`crate::v0_to_v2`] decoded it. Other calls have changed nothing.
                    $begun: bool,
                })?,
            )*
            /// A number that this list does not have, from an archive that is newer than the crate.
            Other {
                /// The number.
                number: u32,
                /// The row that was told with it.
                row: u32,
                /// The count that was told with it.
                filler: u64,
            },
        }

        impl Refusal {
            /// The refusal that a number, a row and a count of missing words tell, as C has them; none of number 0, which is
            /// done. Which call gave the number isn't known here, so 9 and 10 count as given after the frame was changed.
            ///
            /// ```
            /// use razvolk::Refusal;
            /// assert_eq!(Refusal::of(8, 435, 3), Some(Refusal::Overrun { row: 435, filler: 3 }));
            /// assert_eq!(Refusal::of(0, 0, 0), None);
            /// ```
            pub const fn of(number: u32, row: u32, filler: u64) -> Option<Refusal> {
                Some(match number {
                    0 => return None,
                    $($number => Refusal::$name $({ $row: row, $($filler: filler)? })? $({ $begun: true })?,)*
                    _ => Refusal::Other { number, row, filler },
                })
            }

            /// The number, as C and the rules have it.
            ///
            /// ```
            /// assert_eq!(razvolk::Refusal::TooSmall.number(), 2);
            /// ```
            pub const fn number(self) -> u32 {
                match self {
                    $(Refusal::$name { .. } => $number,)*
                    Refusal::Other { number, .. } => number,
                }
            }

            /// The row at fault, or 0 where the refusal has none.
            ///
            /// ```
            /// use razvolk::Refusal;
            /// assert_eq!((Refusal::Overrun { row: 435, filler: 3 }.row(), Refusal::TooSmall.row()), (435, 0));
            /// ```
            pub const fn row(self) -> u32 {
                match self {
                    $($(Refusal::$name { $row, .. } => $row,)?)*
                    Refusal::Other { row, .. } => row,
                    _ => 0,
                }
            }

            /// How many words of 4 bytes the stream lacked up to the refusal: they were read as ones. 0 where the refusal tells
            /// of none.
            ///
            /// ```
            /// // A header, and no more: the first row is made of ones.
            /// let refused = razvolk::decode_v2(&[0; 16], 646, 436, &mut vec![0; 646 * 436]).unwrap_err();
            /// assert_eq!((refused.number(), refused.filler_words()), (8, 7));
            /// ```
            pub const fn filler_words(self) -> u64 {
                match self {
                    $($($(Refusal::$name { $filler, .. } => $filler,)?)?)*
                    Refusal::Other { filler, .. } => filler,
                    _ => 0,
                }
            }
        }

        impl fmt::Display for Refusal {
            fn fmt(&self, f: &mut fmt::Formatter<'_>) -> fmt::Result {
                match *self {
                    $(Refusal::$name $({ $row, .. })? $({ $begun: _ })? => write!(f, $text),)*
                    Refusal::Other { number, row, .. } => write!(f, "refusal {number} in row {row}"),
                }
            }
        }
    };
}

refusals! {
    /// Why a frame was refused. More kinds come with more numbers, so a `match` needs an arm for the others.
    ///
    /// N is width times height; scratch needs [`crate::scratch_len`] bytes.
    ///
    /// | Number | Given when | Left behind |
    /// |---|---|---|
    /// | 1 | width or height is above 16,384 | every buffer as it was |
    /// | 2 | V2: width is below 32 or height below 1 | every buffer as it was |
    /// | 3 | fewer than N samples are lent, or in V0 fewer offsets than rows | every buffer as it was |
    /// | 4 | the map is shorter than N bytes, or the scratch is too short | every buffer as it was |
    /// | 5 | V2: a block of row 0 or 1 predicts from the rows above | the blocks before it are written |
    /// | 6 | V2: a block predicts from outside the frame | the blocks before it are written |
    /// | 7 | V2: a difference is longer than the depth allows | the blocks before it are written |
    /// | 8 | V2: the stream ended | that row and those before it are written |
    /// | 9 | a sample to be written is above 16,383 | all as it was, but for a frame blanked or decoded before |
    /// | 10 | the stream or the offsets to be written do not fit their buffer | all as it was, but for a frame blanked or decoded before |
    /// | 11 | in bands: the band count or the block width is none that the frame can be cut by | every buffer as it was |
    /// | 12 | in bands: the list is too short or too long, or a step is no block's number or is not ready | every buffer as it was |
    /// | 13 | blanking: the list is too short for all runs | every buffer as it was |
    /// | 14 | blanking: one of the first N map bytes is above 3 | every buffer as it was |
    /// | 15 | V0 into V2: the width is not a multiple of 16 | every buffer as it was |
    /// | 16 | V0 into V2: a sample of the decoded frame is marked | the frame is decoded, the stream as it was |
    /// | 17 | for clean frames: a block of row 0 or 1 has direction 1 | every buffer as it was |
    /// | 18 | for clean frames: a length is outside 0 to 16 after its block's operations | every buffer as it was |
    /// | 19 | for clean frames: a word was missing by the end of a block | every buffer as it was |
    /// | 20 | packed by others: a sample of the decoded frame is not the one meant | the frame is decoded, in the scratch |
    /// | 21 | packed by others: the stream is longer than what the writer makes | every buffer as it was |
    ///
    /// A decoder tests 1 to 4 in this order, in bands then 11 and 12, for clean frames then 17 to 19 block by block, a writer 1,
    /// 3, 9 and 10, blanking 1, 3, 4, 14 and 13; the export goes on to 9 and 10, which leave the frame blanked and write nothing.
    /// V0 into V2 tests 1 to 4 and 15, and when the frame is decoded 16, 9 and 10. What others packed is tested by 1, 3, 9, 3, 17
    /// to 19 and 21, and when the frame is decoded by 20. [`Refusal::has_begun`] tells whether a buffer may be changed. After 5 to
    /// 8 the map describes the samples as they are left; the row in which the stream ended has ones in place of the missing bits.
    /// 5 to 8 carry how many words were missing up to there, from the header on: [`Refusal::filler_words`].
    ///
    /// ```
    /// use razvolk::Refusal;
    ///
    /// let refused = razvolk::decode_v2(&[], 646, 436, &mut vec![0; 646 * 436]).unwrap_err();
    /// assert_eq!(refused, Refusal::EarlyMotion { row: 0, filler: 5 });
    /// assert_eq!((refused.number(), refused.row(), refused.filler_words()), (5, 0, 5));
    /// assert_eq!(refused.to_string(), "row 0 predicts from rows that do not exist");
    /// ```
    1 TooLarge "width or height is above 16,384";
    2 TooSmall "the frame is smaller than 32 by 1";
    3 ShortSamples "the sample buffer or the offset table is too short";
    4 ShortMap "the map or the scratch is too short";
    5 EarlyMotion { row, filler } "row {row} predicts from rows that do not exist";
    6 Outside { row, filler } "row {row} predicts from outside the frame";
    7 LongDifference { row, filler } "row {row} has a difference longer than the depth allows";
    8 Overrun { row, filler } "the stream ends in row {row}";
    9 TooBright [begun] "a sample is above 16,383";
    10 ShortOutput [begun] "the buffer for the stream or the offsets is too short";
    11 BadCut "the frame can't be cut into so many bands, or into blocks of that width";
    12 BadSteps "the steps don't do each block of the frame once, each when it is ready";
    13 ShortRuns "the list is too short for all runs";
    14 BadMap "a map byte is above 3";
    15 BadWidth "the width is no multiple of 16";
    16 Marked "a sample of the decoded frame is marked";
    17 EarlyUpward { row } "row {row} isn't clean: a block looks up to rows that do not exist";
    18 BadLength { row } "row {row} isn't clean: a length is outside 0 to 16";
    19 MissingWord { row } "row {row} isn't clean: the stream ends in it";
    20 OtherSample "a sample isn't the one that is meant";
    21 LongStream "the stream is longer than what the writer makes";
}

impl Refusal {
    /// Whether a lent buffer may be changed. `false` is a promise: every buffer that was lent to the call is as it was.
    ///
    /// It is `true` of 5 to 8, where a decoder has begun to write the frame; of 16 and 20, where the frame is decoded; of 9 and 10
    /// if [`crate::export_v0`] or [`crate::v0_to_v2`] gave them, which blank or decode the frame before they write it; and of
    /// numbers that this crate doesn't know ([`Refusal::Other`]). The table above and the page of each call tell what is changed
    /// then.
    ///
    /// ```
    /// use razvolk::Refusal;
    /// assert!(!Refusal::ShortMap.has_begun());
    /// assert!(Refusal::EarlyMotion { row: 1, filler: 0 }.has_begun());
    ///
    /// // The writer refuses before it changes anything; the export has blanked the frame by then.
    /// let mut samples = [16_384, 60_000];
    /// let refused = razvolk::write_v0(&samples, 2, 1, &mut [0; 64], &mut [0]).unwrap_err();
    /// assert_eq!((refused.number(), refused.has_begun()), (9, false));
    /// let exported = razvolk::export_v0(&mut samples, &[0, 1], 2, 1, &mut [0; 3], &mut [0; 64], &mut [0])?;
    /// let refused = exported.written.unwrap_err();
    /// assert_eq!((refused.number(), refused.has_begun(), samples), (9, true, [16_384, 0]));
    /// # Ok::<(), Refusal>(())
    /// ```
    pub const fn has_begun(self) -> bool {
        match self {
            Refusal::TooBright { begun } | Refusal::ShortOutput { begun } => begun,
            Refusal::Other { .. } => true,
            _ => matches!(self.number(), 5..=8 | 16 | 20),
        }
    }

    /// The same refusal of a call that tests 9 and 10 before it changes anything.
    pub(crate) const fn unbegun(self) -> Refusal {
        match self {
            Refusal::TooBright { .. } => Refusal::TooBright { begun: false },
            Refusal::ShortOutput { .. } => Refusal::ShortOutput { begun: false },
            other => other,
        }
    }
}

impl error::Error for Refusal {}

#[cfg(test)]
mod tests {
    use super::*;

    #[test]
    fn each_refusal_has_its_number_and_a_message_of_its_own() {
        let mut texts: Vec<String> = Vec::new();
        for number in 1..=99 {
            let refusal = Refusal::of(number, 7, u64::MAX).expect("not done");
            let text = refusal.to_string();
            assert_eq!(refusal.number(), number);
            let counts = matches!(number, 5..=8) || matches!(refusal, Refusal::Other { .. });
            assert_eq!(refusal.filler_words(), if counts { u64::MAX } else { 0 });
            assert_eq!(text.contains("row 7"), refusal.row() == 7, "{text}");
            assert!(!texts.contains(&text), "{text}");
            texts.push(text);
        }
        assert_eq!(Refusal::of(99, 7, 1), Some(Refusal::Other { number: 99, row: 7, filler: 1 }));
        let error: Box<dyn error::Error> = Box::new(Refusal::Overrun { row: 435, filler: 1 });
        assert_eq!(error.to_string(), "the stream ends in row 435");
    }

    /// By its number alone, a refusal may have changed something unless no call that gives it does.
    #[test]
    fn a_number_whose_call_is_not_known_promises_nothing() {
        let begun = |number: &u32| Refusal::of(*number, 0, 0).expect("not done").has_begun();
        assert!((1..=99).filter(begun).eq((5..=10).chain([16, 20]).chain(22..=99)));
        let unbegun = |number| Refusal::of(number, 0, 0).expect("not done").unbegun();
        assert_eq!([unbegun(9).has_begun(), unbegun(10).has_begun(), unbegun(16).has_begun()], [false, false, true]);
    }

    #[test]
    fn number_0_is_done() {
        let done = Answer { number: 0, row: 0, filler: 3 };
        assert_eq!((done.result(), done.counted()), (Ok(()), Ok(3)));
        let refused = Answer { number: 5, row: 1, filler: 3 };
        assert_eq!(refused.result(), Err(Refusal::EarlyMotion { row: 1, filler: 3 }));
        assert_eq!(refused.counted().map(|_| ()), refused.result());
        let written = |number| Written { answer: Answer { number, row: 0, filler: 0 }, length: 24 };
        assert_eq!(written(0).result(), Ok(24));
        assert_eq!(written(10).result(), Err(Refusal::ShortOutput { begun: true }));
        let blanked = |number| Blanked { answer: Answer { number, row: 0, filler: 0 }, count: 5, runs: 2 };
        assert_eq!(blanked(0).result(), Ok(crate::Blanked { count: 5, runs: 2 }));
        assert_eq!(blanked(13).result(), Err(Refusal::ShortRuns));
        let exported =
            |number| Exported { answer: Answer { number, row: 0, filler: 0 }, count: 5, runs: 2, length: 24 };
        let blanked = crate::Blanked { count: 5, runs: 2 };
        assert_eq!(exported(0).result(), Ok(crate::Exported { blanked, written: Ok(24) }));
        assert_eq!(
            exported(9).result(),
            Ok(crate::Exported { blanked, written: Err(Refusal::TooBright { begun: true }) })
        );
        assert_eq!(exported(14).result(), Err(Refusal::BadMap));
    }
}
