//! V0's comparison, a quick part of it; and decoders that are wrong, each of which it must find out.

use compare::call::{Decoder, Entry, razvolk_of, with_map};
use compare::v0::model::{Fault, entry};
use compare::{missing, refusals, uploads, v0};
use streams::Version;

fn own(fault: Fault) -> Vec<Entry> {
    let all = [(Decoder::Direct, false), (Decoder::Direct, true), (Decoder::TwoPhase, false)];
    all.into_iter().map(|(decoder, map)| entry(fault, decoder, map)).collect()
}

#[test]
fn razvolk_decodes_v0_as_the_rust_does() {
    let entries = razvolk_of(Version::V0);
    let seen = v0::compare(&entries, 0x5eed, 4_000).unwrap_or_else(|difference| panic!("{difference}"));
    println!("{seen}");
    assert_eq!(seen.calls, 4_000 * 2 * entries.len() as u64);
    assert!(seen.upward > 1_000 && seen.operations.iter().all(|&n| n > 10_000), "{seen}");
    assert!(seen.none > 5_000 && seen.long > 100 && seen.missing.rows > 1_000 && seen.missing.words > 10_000, "{seen}");
    assert!(seen.spill > 1_000 && seen.old > 1_000 && seen.filled > 100_000, "{seen}");
}

#[test]
fn razvolk_counts_the_missing_words_of_v0() {
    let seen = missing::compare(&razvolk_of(Version::V0), &[], 0x5eed, 40);
    let seen = seen.unwrap_or_else(|difference| panic!("{difference}"));
    println!("{seen}");
    assert!(seen.v0.frames > 1_000 && seen.v0.missing.words > 20_000, "{seen}");
}

#[test]
fn what_a_cut_upload_of_v0_shows_is_final() {
    let seen = uploads::compare(&with_map(razvolk_of(Version::V0)), &[], 0x5eed, 80);
    let seen = seen.unwrap_or_else(|difference| panic!("{difference}"));
    println!("{seen}");
    assert!(seen.pairs[0] > 1_000 && seen.shown > 100_000 && seen.gained > 100_000, "{seen}");
}

/// Without the part of the rule that it breaks, what is shown would not be final.
#[test]
fn marks_that_miss_filler_are_found_out_by_what_they_show() {
    use Fault::*;
    for fault in [FillerNotMarked, FillerBeforeTheBlock, FillerNotInherited, FillerNotExchanged] {
        assert!(uploads::compare(&[entry(fault, Decoder::Direct, true)], &[], 7, 200).is_err(), "{fault:?}");
    }
    let own = uploads::compare(&[entry(None, Decoder::Direct, true)], &[], 7, 200);
    own.unwrap_or_else(|difference| panic!("{difference}"));
}

#[test]
fn razvolk_refuses_v0_by_the_rules() {
    let entries = razvolk_of(Version::V0);
    let seen = refusals::compare(&entries, 0x5eed, 4_000).unwrap_or_else(|difference| panic!("{difference}"));
    println!("{seen:?}");
    assert!([0, 1, 3].iter().all(|&i| seen.numbers[i] > 100), "{seen:?}");
}

#[test]
fn a_decoder_of_its_own_without_a_fault_is_alike() {
    v0::compare(&own(Fault::None), 7, 8_000).unwrap_or_else(|difference| panic!("{difference}"));
    missing::compare(&own(Fault::None), &[], 7, 20).unwrap_or_else(|difference| panic!("{difference}"));
    refusals::compare(&own(Fault::None), 7, 4_000).unwrap_or_else(|difference| panic!("{difference}"));
}

#[test]
fn a_wrong_decoder_is_found_out() {
    let found_out = |fault: &Fault| {
        v0::compare(&own(*fault), 7, 4_000).is_err() || missing::compare(&own(*fault), &[], 7, 60).is_err()
    };
    let missed: Vec<Fault> = Fault::ALL.iter().copied().filter(|fault| !found_out(fault)).collect();
    assert!(missed.is_empty(), "not found out: {missed:?}");
}
