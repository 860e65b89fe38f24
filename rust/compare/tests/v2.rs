//! V2's comparison, a quick part of it; and decoders that are wrong, each of which it must find out.

use compare::call::{Answer, Ask, Entry, Lent, razvolk_of, with_map};
use compare::v2::model::{Fault, entry};
use compare::{missing, refusals, uploads, v2};
use std::collections::HashSet;
use streams::bits::Writer;
use streams::random::Random;
use streams::v2::any::Header;
use streams::{Frame, Version};

fn own(fault: Fault) -> Vec<Entry> {
    [false, true].into_iter().map(|map| entry(fault, map)).collect()
}

#[test]
fn razvolk_decodes_v2_as_the_rust_does() {
    let entries = razvolk_of(Version::V2);
    let seen = v2::compare(&entries, 0x5eed, 120).unwrap_or_else(|difference| panic!("{difference}"));
    println!("{seen}");
    assert!([0, 5, 6, 7, 8].iter().all(|&i| seen.numbers[i] > 0), "{seen}");
    assert!(seen.used.motions.iter().chain(&seen.used.flags).chain(&seen.used.held).all(|&n| n > 1_000), "{seen}");
    assert!(seen.deep > 60 && seen.marked > 1_000_000, "{seen}");
}

#[test]
fn razvolk_decodes_crops_by_the_rules() {
    let entries = razvolk_of(Version::V2);
    let seen = v2::crops::compare(&entries, 0x5eed, 5_000).unwrap_or_else(|difference| panic!("{difference}"));
    println!("{seen}");
    assert!([0, 5, 6, 7, 8].iter().all(|&i| seen.numbers[i] > 10), "{seen}");
    assert!(seen.used.motions.iter().chain(&seen.used.flags).chain(&seen.used.held).all(|&n| n > 1_000), "{seen}");
    assert!(seen.deep > 1_000 && seen.marked > 1_000_000 && seen.filled > 10_000, "{seen}");
}

#[test]
fn crops_have_each_size_of_32_to_200_by_1_to_80() {
    let sizes: HashSet<_> = (0..v2::crops::SIZES).map(v2::crops::size).collect();
    assert!(sizes.iter().all(|&(width, height)| (32..=200).contains(&width) && (1..=80).contains(&height)));
    assert_eq!(sizes.len(), 169 * 80);
    let all: HashSet<_> = (0..16 * v2::crops::SIZES).map(|i| (v2::crops::size(i), v2::crops::options(i))).collect();
    assert_eq!(all.len(), 16 * 169 * 80, "each with each value of the options");
    assert!(!sizes.iter().any(|&(width, height)| v2::compare::rust_takes(width, height)));
}

/// A stream in which one block, and those right of it in its row, have the motion, and all others repeat. Rows 0 and 1 have
/// differences.
fn one_motion(random: &mut Random, (width, height): (usize, usize), row: usize, block: usize, motion: u32) -> Frame {
    let mut writer = Writer::default();
    Header { depth: 14, options: 4, initial: 5_000 }.write(random, &mut writer);
    for at in 0..height {
        for col in 0..width / 16 {
            let keeps = (at, col) != (row, block);
            writer.put(if keeps { 1 } else { motion }, if keeps { 1 } else { 4 });
            if at < 2 {
                // Lengths follow: four flags 3, each length 4; sixteen differences.
                writer.put(0x0ff_4444, 25);
                writer.put(random.number() as u32, 32);
                writer.put(random.number() as u32, 32);
            } else {
                writer.put(1, 1);
            }
        }
        writer.align(16);
    }
    Frame { version: Version::V2, width, height, stream: writer.finish(), offsets: Vec::new() }
}

#[test]
fn number_6_comes_exactly_at_row_2_column_0_motions_0_to_2() {
    let mut random = Random::new(8);
    for size in [(646, 436), (32, 4), (33, 5), (47, 4)] {
        for (row, block, motion) in (0..32).map(|i| (2 + i / 16, i / 8 % 2, i as u32 % 8)) {
            let frame = one_motion(&mut random, size, row, block, motion);
            let old: Vec<u16> = (0..frame.samples()).map(|_| random.number() as u16).collect();
            let (expected, samples) = v2::compare::decided(&frame, &old);
            let six = row == 2 && block == 0 && motion < 3;
            let what = format!("{size:?}, row {row}, block {block}, motion {motion}");
            assert_eq!(expected.number, if six { 6 } else { 0 }, "{what}");
            for entry in razvolk_of(Version::V2) {
                let (mut out, mut map) = (old.clone(), vec![1; old.len()]);
                let lent = &mut Lent { samples: &mut out, map: &mut map, scratch: &mut [] };
                let answer = entry.call(&Ask::of(&frame), lent);
                let at = if six { Answer { number: 6, row: 2, filler: 0 } } else { Answer::DONE };
                assert_eq!(answer, at, "{}: {what}", entry.name);
                assert!(out == samples, "{}: {what}", entry.name);
            }
        }
    }
}

#[test]
fn frames_of_full_size_are_the_largest_and_a_camera_s() {
    let mut random = Random::new(1);
    let sizes: Vec<(usize, usize)> = (0..50).map(|i| v2::full::size(&mut random, i)).collect();
    let count = |size: (usize, usize)| sizes.iter().filter(|&&one| one == size).count();
    assert!(count((16_384, 16_384)) == 2 && count((6_496, 4_336)) == 20, "{sizes:?}");
    assert!(sizes.iter().all(|&(width, height)| (646..=16_384).contains(&width) && (436..=16_384).contains(&height)));
}

#[test]
fn razvolk_counts_the_missing_words_of_v2() {
    let seen = missing::compare(&[], &razvolk_of(Version::V2), 0x5eed, 64);
    let seen = seen.unwrap_or_else(|difference| panic!("{difference}"));
    println!("{seen}");
    assert!(seen.v2.calls > 1_000 && seen.v2.missing > 5_000, "{seen}");
    assert!([5, 7, 8].iter().all(|&i| seen.v2.numbers[i] > 4), "{seen}");
}

#[test]
fn what_a_cut_upload_of_v2_shows_is_final() {
    let seen = uploads::compare(&[], &with_map(razvolk_of(Version::V2)), 0x5eed, 1);
    let seen = seen.unwrap_or_else(|difference| panic!("{difference}"));
    println!("{seen}");
    assert!(seen.pairs[1] >= 436 && seen.rows == 436 && seen.shown > 1_000_000, "{seen}");
    for fault in [Fault::FillerNotMarked, Fault::FillerBeforeTheBlock] {
        assert!(uploads::compare(&[], &[entry(fault, true)], 7, 1).is_err(), "{fault:?}");
    }
}

/// The first length is too long, and has the last bits of the stream: the other lengths would need a missing word.
#[test]
fn lengths_are_read_one_by_one() {
    let mut stream = vec![0; 20];
    (stream[9], stream[16], stream[17], stream[18], stream[19]) = (1, 0xff, 0xff, 0x01, 0xc0);
    for (width, height) in [(32, 1), (646, 436)] {
        let frame = Frame { stream: stream.clone(), ..Frame::new(Version::V2, width, height) };
        for entry in razvolk_of(Version::V2).into_iter().chain(own(Fault::None)) {
            let (mut out, mut map) = (vec![7; frame.samples()], vec![9; frame.samples()]);
            let answer = entry.call(&Ask::of(&frame), &mut Lent { samples: &mut out, map: &mut map, scratch: &mut [] });
            assert_eq!(answer, Answer { number: 7, row: 0, filler: 0 }, "{}", entry.name);
        }
    }
}

#[test]
fn razvolk_refuses_v2_by_the_rules() {
    let entries = razvolk_of(Version::V2);
    let seen = refusals::compare(&entries, 0x5eed, 1_000).unwrap_or_else(|difference| panic!("{difference}"));
    println!("{seen}");
    assert!((1..=4).all(|i| seen.numbers[i] > 5), "{seen}");
}

#[test]
fn a_decoder_of_its_own_without_a_fault_is_alike() {
    v2::compare(&own(Fault::None), 7, 60).unwrap_or_else(|difference| panic!("{difference}"));
    v2::crops::compare(&own(Fault::None), 7, 200).unwrap_or_else(|difference| panic!("{difference}"));
    refusals::compare(&own(Fault::None), 7, 200).unwrap_or_else(|difference| panic!("{difference}"));
}

#[test]
fn a_wrong_decoder_is_found_out() {
    let found_out = |fault: &Fault| {
        v2::compare(&own(*fault), 7, 150).is_err() || missing::compare(&[], &own(*fault), 7, 64).is_err()
    };
    let missed: Vec<Fault> = Fault::ALL.iter().copied().filter(|fault| !found_out(fault)).collect();
    assert!(missed.is_empty(), "not found out: {missed:?}");
}

#[test]
fn a_wrong_decoder_of_crops_is_found_out() {
    let found_out = |fault: &Fault| v2::crops::compare(&own(*fault), 7, 2_000).is_err();
    let missed: Vec<Fault> = Fault::ALL.iter().copied().filter(|fault| !found_out(fault)).collect();
    assert!(missed.is_empty(), "not found out: {missed:?}");
}
