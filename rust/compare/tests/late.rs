//! A late fault reaches as far as the bound and no further, and decoders in which it reaches further are found out.

use compare::call::{Ask, Entry, Lent, razvolk_of};
use compare::late::{compare, razvolk_of_v0};
use streams::Version::{V0, V2};

/// Razvolk's entries of a version, each followed by something that must not be.
fn with(version: streams::Version, wrong: fn(&Ask, &mut Lent)) -> Vec<Entry> {
    let wrap = |entry: Entry| {
        let (name, decoder, map) = (entry.name, entry.decoder, entry.map);
        Entry::new(name, decoder, map, move |ask, lent| {
            let answer = entry.call(ask, lent);
            wrong(ask, lent);
            answer
        })
    };
    razvolk_of(version).into_iter().map(wrap).collect()
}

#[test]
fn razvolk_keeps_to_the_bound_and_reaches_it() {
    let seen = compare(&razvolk_of_v0(), &razvolk_of(V2), 0x5eed, 640).expect("no difference");
    assert!(seen.v0.rows > 0 && seen.v0.at_bound > 0 && seen.exchanged > 0 && seen.clean > 0, "{seen}");
    assert!(seen.v2.rows > 0 && seen.v2.at_bound > 0 && seen.refused > 0, "{seen}");
}

#[test]
fn a_sample_of_row_0_by_the_last_entry() {
    let wrong = |ask: &Ask, lent: &mut Lent| {
        if let (Some(sample), Some(&offset)) = (lent.samples.first_mut(), ask.offsets.last()) {
            *sample ^= offset as u16;
        }
    };
    assert!(compare(&with(V0, wrong), &[], 1, 200).is_err());
}

#[test]
fn a_map_byte_of_row_0_by_the_last_entry() {
    let wrong = |ask: &Ask, lent: &mut Lent| {
        if let (Some(byte), Some(&offset)) = (lent.map.first_mut(), ask.offsets.last()) {
            *byte ^= offset as u8;
        }
    };
    assert!(compare(&with(V0, wrong), &[], 1, 200).is_err());
}

#[test]
fn a_sample_of_row_0_by_the_last_byte() {
    let wrong = |ask: &Ask, lent: &mut Lent| lent.samples[0] ^= u16::from(ask.src[ask.src.len() - 1]);
    assert!(compare(&[], &with(V2, wrong), 1, 1).is_err());
}

#[test]
fn a_map_byte_of_row_0_by_the_last_byte() {
    let wrong = |ask: &Ask, lent: &mut Lent| lent.map[0] ^= ask.src[ask.src.len() - 1];
    assert!(compare(&[], &with(V2, wrong), 1, 320).is_err());
}
