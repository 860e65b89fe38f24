//! Proposals of every source, as they are and with one trouble or several, against the plain verdict: answer and scratch must be
//! its. What is taken is decoded back by every V0 decoder.

use super::model::{self, Fault};
use super::proposals::{Proposal, Source, Trouble};
use crate::call::{Answer, Difference, Entry, first_difference, razvolk_of};
use crate::write::compare::{back, frame};
use crate::write::plain::plain;
use std::fmt;
use streams::random::Random;
use streams::{Frame, Version, v0};

/// A check under test.
pub type Check<'a> = &'a dyn Fn(&Proposal, &mut [u16]) -> Answer;

/// Razvolk's.
pub fn razvolk(proposal: &Proposal, scratch: &mut [u16]) -> Answer {
    let Frame { width, height, ref stream, ref offsets, .. } = proposal.frame;
    match razvolk::check_packed(stream, offsets, width, height, &proposal.meant, scratch) {
        Ok(()) => Answer::DONE,
        Err(refusal) => Answer { number: refusal.number(), row: refusal.row(), filler: refusal.filler_words() },
    }
}

/// What was compared.
#[derive(Debug, Default)]
pub struct Seen {
    pub seed: u64,
    pub proposals: u64,
    pub samples: u64,
    /// How many got number 0 to 21.
    pub numbers: [u64; 22],
    /// How many of the writer's were taken, and of those that the search found; how many of these are shorter, and all bytes of
    /// the writer's and of theirs.
    pub written: u64,
    pub searched: u64,
    pub shorter: u64,
    pub bytes: [u64; 2],
    pub decoded: u64,
}

impl fmt::Display for Seen {
    fn fmt(&self, f: &mut fmt::Formatter<'_>) -> fmt::Result {
        let Seen { seed, proposals, samples, numbers, written, searched, shorter, bytes: [all, found], decoded } = self;
        writeln!(f, "packed, seed {seed}: {proposals} proposals, {samples} samples, answers 0 to 21: {numbers:?}")?;
        write!(
            f,
            "packed: {written} of the writer's taken, {searched} of the search's, {shorter} of them shorter, {found} bytes in \
             place of {all}; {decoded} decoded back"
        )
    }
}

/// Compares `count` proposals, up to the first difference.
pub fn compare(check: Check, seed: u64, count: u64) -> Result<Seen, Difference> {
    let mut random = Random::new(seed);
    let mut seen = Seen { seed, ..Seen::default() };
    let entries = razvolk_of(Version::V0);
    for i in 0..count {
        let (width, height) = v0::any::size(&mut random, i);
        let source = Source::ALL[i as usize % Source::ALL.len()];
        let samples = frame(&mut random, width, height);
        let mut proposal = source.proposal(&mut random, samples, width, height);
        let (troubles, scratch) = troubled(&mut random, i, &mut proposal);
        one(check, &entries, &proposal, scratch, (source, &troubles), &mut random, &mut seen).map_err(|what| {
            let Proposal { frame: Frame { stream, offsets, .. }, meant } = &proposal;
            let shown =
                if meant.len() <= 100 { format!("{meant:?}, {offsets:?}, {stream:02x?}") } else { String::new() };
            Difference(format!(
                "packed, seed {seed}, {i}, {width} by {height}, {source:?}, {troubles:?}: {what}\n{shown}"
            ))
        })?;
    }
    Ok(seen)
}

/// Of four proposals one stays as it is, two get one trouble, and one gets several; gives how many scratch samples are lent.
fn troubled(random: &mut Random, i: u64, proposal: &mut Proposal) -> (Vec<Trouble>, usize) {
    let mut any = || Trouble::ALL[random.index(Trouble::ALL.len())];
    let troubles: Vec<Trouble> = match i / 6 % 4 {
        0 => Vec::new(),
        1 | 2 => vec![any()],
        _ => (0..3).map(|_| any()).collect(),
    };
    let mut scratch = proposal.frame.samples() + random.index(3);
    // Samples and offsets past the frame, of which none counts.
    let more = random.index(3);
    proposal.meant.extend(random.samples(more));
    proposal.frame.offsets.extend((0..random.index(3)).map(|_| random.number() as u32));
    for trouble in &troubles {
        if *trouble == Trouble::ShortOffsets {
            proposal.frame.offsets.truncate(proposal.frame.height.min(proposal.frame.offsets.len()));
        }
        scratch = scratch.min(trouble.apply(random, proposal, scratch));
    }
    (troubles, scratch)
}

/// One proposal, over scratch samples that are random.
fn one(
    check: Check,
    entries: &[Entry],
    proposal: &Proposal,
    scratch: usize,
    (source, troubles): (Source, &[Trouble]),
    random: &mut Random,
    seen: &mut Seen,
) -> Result<(), String> {
    let old = random.samples(scratch);
    let (mut new, mut left) = (old.clone(), old.clone());
    let expected = model::check(Fault::None, proposal, &mut left);
    let answer = check(proposal, &mut new);
    if answer != expected {
        return Err(format!("answered {answer}, expected {expected}"));
    }
    if let Some(what) = first_difference(&new, &left) {
        return Err(format!("{answer}, scratch: {what}"));
    }
    if source.is_taken() && troubles.is_empty() && answer != Answer::DONE {
        return Err(format!("{answer}, but it must be taken"));
    }
    seen.proposals += 1;
    seen.samples += left.len() as u64;
    seen.numbers[answer.number as usize] += 1;
    if answer == Answer::DONE {
        taken(entries, proposal, (source, troubles), random, seen)?;
    }
    Ok(())
}

/// What is taken: it is counted, and decoded back.
fn taken(
    entries: &[Entry],
    proposal: &Proposal,
    (source, troubles): (Source, &[Trouble]),
    random: &mut Random,
    seen: &mut Seen,
) -> Result<(), String> {
    let Proposal { frame, meant } = proposal;
    let samples = &meant[..frame.samples()];
    seen.decoded += back(entries, frame, samples, random)?;
    seen.written += u64::from(source == Source::Written && troubles.is_empty());
    if source == Source::Searched && troubles.is_empty() {
        let all = plain(samples, frame.width, frame.height).0.len();
        seen.searched += 1;
        seen.shorter += u64::from(frame.stream.len() < all);
        seen.bytes[0] += all as u64;
        seen.bytes[1] += frame.stream.len() as u64;
    }
    Ok(())
}
