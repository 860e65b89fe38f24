//! Proposals: what the writer makes, what a search finds, clean frames and any frames; and troubles that make near misses of them.

use crate::clean::frames::{self, At, Wrong};
use crate::write::plain::plain;
use streams::random::Random;
use streams::{Frame, Version, v0};

/// A coded frame, and the samples that it is meant to hold.
#[derive(Clone, Debug)]
pub struct Proposal {
    pub frame: Frame,
    pub meant: Vec<u16>,
}

/// Where a proposal comes from.
#[derive(Clone, Copy, Debug, PartialEq, Eq)]
pub enum Source {
    /// What the writer makes: it must be taken.
    Written,
    /// What the search finds: it must be taken.
    Searched,
    /// The same with bytes after it that nothing reads, up to as many as the writer makes: it must be taken.
    Filled,
    /// A clean frame of any kind, and what it decodes to.
    Clean,
    /// A frame with a fault of those that are not clean, or two.
    Unclean,
    /// Any frame.
    Any,
}

impl Source {
    pub const ALL: [Source; 6] =
        [Source::Written, Source::Searched, Source::Filled, Source::Clean, Source::Unclean, Source::Any];

    /// Whether what comes from there must be taken, as long as nothing is wrong with it.
    pub fn is_taken(self) -> bool {
        matches!(self, Source::Written | Source::Searched | Source::Filled)
    }

    /// A proposal from there, of samples up to 16,383.
    pub fn proposal(self, random: &mut Random, samples: Vec<u16>, width: usize, height: usize) -> Proposal {
        let frame = match self {
            Source::Written => {
                let (stream, offsets) = plain(&samples, width, height);
                Frame { version: Version::V0, width, height, stream, offsets }
            }
            Source::Searched => v0::pack(&samples, width, height),
            Source::Filled => {
                let mut frame = v0::pack(&samples, width, height);
                let most = plain(&samples, width, height).0.len().max(frame.stream.len());
                frame.stream.extend(random.bytes(most - frame.stream.len()));
                frame
            }
            Source::Clean => frames::frame(random, width, height, &[]),
            Source::Unclean => {
                let faults: Vec<At> = (0..1 + random.index(2)).filter_map(|_| fault(random, width, height)).collect();
                frames::frame(random, width, height, &faults)
            }
            Source::Any => v0::any(random, width, height),
        };
        // What a clean frame decodes to may be taken; its samples need not be up to 16,383.
        let meant = if self == Source::Clean {
            let mut out = vec![0; samples.len()];
            reference::decode_v0_reference(&frame.stream, &frame.offsets, width, height, &mut out).expect("V0 is done");
            if random.once_in(2) { out } else { out.into_iter().map(|sample| sample % 16_384).collect() }
        } else {
            samples
        };
        Proposal { frame, meant }
    }
}

/// A fault that can stand at a block of the frame, if there is such a block.
fn fault(random: &mut Random, width: usize, height: usize) -> Option<At> {
    let wrong = Wrong::ALL[random.index(4)];
    let (first, blocks) = (wrong.before(), width.div_ceil(16));
    if blocks <= first || height == 0 {
        return None;
    }
    let row = random.index(if wrong == Wrong::Up { height.min(2) } else { height });
    Some(At { row, block: first + random.index(blocks - first), length: random.index(4), wrong })
}

/// What may be wrong with a proposal besides.
#[derive(Clone, Copy, Debug, PartialEq, Eq)]
pub enum Trouble {
    TooLarge,
    ShortMeant,
    Bright,
    ShortScratch,
    ShortOffsets,
    Upward,
    Cut,
    LongerByOne,
    Longer,
    OtherSample,
    OtherLastSample,
}

impl Trouble {
    pub const ALL: [Trouble; 11] = [
        Trouble::TooLarge,
        Trouble::ShortMeant,
        Trouble::Bright,
        Trouble::ShortScratch,
        Trouble::ShortOffsets,
        Trouble::Upward,
        Trouble::Cut,
        Trouble::LongerByOne,
        Trouble::Longer,
        Trouble::OtherSample,
        Trouble::OtherLastSample,
    ];

    /// Makes a proposal wrong so, where it can be; gives how many scratch samples are lent.
    pub fn apply(self, random: &mut Random, proposal: &mut Proposal, scratch: usize) -> usize {
        let Proposal { frame, meant } = proposal;
        let n = frame.samples().min(meant.len());
        match self {
            Trouble::TooLarge => {
                let side = [16_385, usize::MAX, 1 << 32][random.index(3)];
                *if random.once_in(2) { &mut frame.width } else { &mut frame.height } = side;
            }
            Trouble::ShortMeant => meant.truncate(n.saturating_sub(1 + random.index(3))),
            Trouble::Bright if n > 0 => {
                meant[random.index(n)] = if random.once_in(2) { 16_384 } else { 16_384 | random.number() as u16 };
            }
            Trouble::ShortScratch => return n.saturating_sub(1 + random.index(3)),
            Trouble::ShortOffsets => drop(frame.offsets.pop()),
            // The first block of row 0 or 1 looks up, if the row is there.
            Trouble::Upward => {
                let row = random.index(2);
                let at = frame.offsets.get(row).map_or(usize::MAX - 3, |&offset| offset as usize) + 3;
                frame.stream.get_mut(at).into_iter().for_each(|byte| *byte |= 0x80);
            }
            Trouble::Cut => frame.stream.truncate(frame.stream.len().saturating_sub(1 + random.index(9))),
            Trouble::LongerByOne => {
                let most = plain_len(proposal).unwrap_or(0) + 1;
                let bytes = random.bytes(most.saturating_sub(proposal.frame.stream.len()));
                proposal.frame.stream.extend(bytes);
            }
            Trouble::Longer => {
                let more = 1 + random.index(300);
                frame.stream.extend(random.bytes(more));
            }
            Trouble::OtherSample if n > 0 => {
                let sample = &mut meant[random.index(n)];
                *sample = if random.once_in(2) { sample.wrapping_add(1) } else { sample.wrapping_sub(1) } % 16_384;
            }
            Trouble::OtherLastSample if n > 0 => meant[n - 1] = (meant[n - 1] ^ 1) % 16_384,
            _ => {}
        }
        scratch
    }
}

/// How many bytes the writer makes of the samples meant, if they are all there and the sides are within the limits.
pub fn plain_len(proposal: &Proposal) -> Option<usize> {
    let Proposal { frame: Frame { width, height, .. }, meant } = proposal;
    let fits = *width <= 16_384 && *height <= 16_384 && width * height <= meant.len();
    fits.then(|| plain(meant, *width, *height).0.len())
}
