//! Decoders that refuse wrongly, each of which the comparison of refusals must find out.

use compare::call::{Answer, Ask, Decoder, Entry, Lent};
use compare::refusals::{self, Lens};

/// Entries that answer as `number` says and decode nothing; `touch` is done before the answer.
fn refusing(
    number: fn(Decoder, bool, usize, usize, Lens) -> Option<u32>,
    touch: fn(Option<u32>, &mut Lent),
) -> Vec<Entry> {
    let decoders = [Decoder::Direct, Decoder::TwoPhase, Decoder::Bands, Decoder::V2];
    let all = decoders.map(|decoder| [(decoder, false), (decoder, true)]);
    let entry = move |(decoder, map)| {
        Entry::new("refusing", decoder, map, move |ask: &Ask, lent: &mut Lent| {
            let number = number(decoder, map, ask.width, ask.height, Lens::of(ask, lent));
            touch(number, lent);
            number.map_or(Answer::DONE, Answer::refused)
        })
    };
    all.into_iter().flatten().map(entry).collect()
}

fn found_out(entries: &[Entry]) -> bool {
    refusals::compare(entries, 7, 3_000).is_err()
}

#[test]
fn one_that_refuses_by_the_rules_is_not_found_out() {
    let seen = refusals::compare(&refusing(refusals::number, |_, _| {}), 7, 3_000);
    let seen = seen.unwrap_or_else(|difference| panic!("{difference}"));
    assert!((0..=4).all(|i| seen.numbers[i] > 50), "{seen}");
}

#[test]
fn one_that_refuses_otherwise_is_found_out() {
    type Number = fn(Decoder, bool, usize, usize, Lens) -> Option<u32>;
    let wrong: [(&str, Number); 10] = [
        ("a limit of 16,383", |d, m, w, h, l| if w == 16_384 { Some(1) } else { refusals::number(d, m, w, h, l) }),
        ("a limit of 16,385", |d, m, w, h, l| refusals::number(d, m, if w == 16_385 { 16_384 } else { w }, h, l)),
        ("a least height of 0", |d, m, w, h, l| {
            refusals::number(d, m, w, if d == Decoder::V2 { h.max(1) } else { h }, l)
        }),
        ("a least width of 31", |d, m, w, h, l| refusals::number(d, m, if w == 31 { 32 } else { w }, h, l)),
        ("2 before 1", |d, m, w, h, l| match refusals::number(d, m, w, h, l) {
            Some(1) if d == Decoder::V2 && (w < 32 || h < 1) => Some(2),
            number => number,
        }),
        ("4 before 3", |d, m, w, h, l| match refusals::number(d, m, w, h, l) {
            Some(3) => refusals::number(d, m, w, h, Lens { samples: usize::MAX, offsets: usize::MAX, ..l }).or(Some(3)),
            number => number,
        }),
        ("one offset short", |d, m, w, h, l| refusals::number(d, m, w, h, Lens { offsets: l.offsets + 1, ..l })),
        ("one sample short", |d, m, w, h, l| refusals::number(d, m, w, h, Lens { samples: l.samples + 1, ..l })),
        ("one map byte short", |d, m, w, h, l| refusals::number(d, m, w, h, Lens { map: l.map + 1, ..l })),
        ("one scratch byte short", |d, m, w, h, l| refusals::number(d, m, w, h, Lens { scratch: l.scratch + 1, ..l })),
    ];
    for (what, number) in wrong {
        assert!(found_out(&refusing(number, |_, _| {})), "{what} was not found out");
    }
}

#[test]
fn one_that_touches_a_buffer_is_found_out() {
    type Touch = fn(Option<u32>, &mut Lent);
    let wrong: [(&str, Touch); 4] = [
        ("samples", |number, lent| {
            if let (Some(_), Some(sample)) = (number, lent.samples.first_mut()) {
                *sample ^= 1;
            }
        }),
        ("a map", |number, lent| {
            if number.is_some() {
                lent.map.fill(1);
            }
        }),
        ("scratch", |number, lent| {
            if number.is_some() {
                lent.scratch.fill(0);
            }
        }),
        ("a sample past the frame", |_, lent| {
            if let Some(sample) = lent.samples.last_mut() {
                *sample ^= 1;
            }
        }),
    ];
    for (what, touch) in wrong {
        assert!(found_out(&refusing(refusals::number, touch)), "to touch {what} was not found out");
    }
}
