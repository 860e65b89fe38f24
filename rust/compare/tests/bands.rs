//! The comparison in bands, a quick part of it; and decoders that are wrong, each of which it must find out.

use compare::bands::model::{Fault, entry};
use compare::bands::{self, Cut, Kind, Way};
use compare::call::razvolk_in_bands;
use streams::random::Random;

#[test]
fn razvolk_decodes_in_bands_as_the_plain_call_and_the_rust_do() {
    let entries = razvolk_in_bands();
    let seen = bands::compare(&entries, 0x5eed, 2_000).unwrap_or_else(|difference| panic!("{difference}"));
    println!("{seen}");
    assert_eq!(seen.calls, 2_000 * 10);
    assert!(seen.bands == 64 && seen.blocks > 1_000 && seen.steps > 100_000, "{seen}");
    assert!([0, 3, 4, 11, 12].iter().all(|&number| seen.numbers[number] > 100), "{seen}");
    assert!(seen.ways.iter().all(|&refused| refused > 200), "{seen}");
}

#[test]
fn a_decoder_of_its_own_without_a_fault_is_alike() {
    bands::compare(&[entry(Fault::None)], 7, 2_000).unwrap_or_else(|difference| panic!("{difference}"));
}

#[test]
fn a_wrong_decoder_is_found_out() {
    let found_out = |fault: &Fault| bands::compare(&[entry(*fault)], 7, 2_000).is_err();
    let missed: Vec<Fault> = Fault::ALL.iter().copied().filter(|fault| !found_out(fault)).collect();
    assert!(missed.is_empty(), "not found out: {missed:?}");
}

/// The list for a frame of 3 bands and 4 blocks by hand: what is good, and what is not.
#[test]
fn verdicts_by_hand() {
    let cut = |steps: &[u32]| Cut { bands: 3, block_width: 16, steps: steps.to_vec() };
    let number = |steps: &[u32]| cut(steps).number(50, 9);
    let good = [0, 1, 4, 2, 5, 8, 3, 6, 9, 7, 10, 11];
    assert_eq!(number(&good), None);
    assert_eq!(number(&[0, 1, 2, 3, 4, 5, 6, 7, 8, 9, 10, 11]), None);
    assert_eq!(number(&[0, 4, 8, 1, 5, 9, 2, 6, 10, 3, 7, 11]), None);
    assert_eq!(number(&good[..11]), Some(12), "one short");
    assert_eq!(number(&[&good[..], &[11]].concat()), Some(12), "one more");
    assert_eq!(number(&[&good[..11], &[10]].concat()), Some(12), "one twice");
    assert_eq!(number(&[&good[..11], &[12]].concat()), Some(12), "no block's number");
    assert_eq!(number(&[1, 0, 4, 2, 5, 8, 3, 6, 9, 7, 10, 11]), Some(12), "before the block to its left");
    assert_eq!(number(&[0, 4, 5, 1, 2, 8, 3, 6, 9, 7, 10, 11]), Some(12), "before the block above");
    let refused = [(0, 16), (4, 16), (3, 0), (3, 8), (3, 17), (65, 16), (usize::MAX, 16), (3, usize::MAX)];
    for (bands, block_width) in refused {
        assert_eq!(Cut { bands, block_width, steps: good.to_vec() }.number(50, 9), Some(11), "{bands}, {block_width}");
    }
    let none = |width, height| Cut { bands: 1, ..cut(&[]) }.number(width, height);
    assert_eq!([none(0, 9), none(50, 2), none(50, 0)], [None; 3], "a frame without blocks has an empty list");
    assert_eq!(none(50, 3), Some(12));
}

#[test]
fn each_way_but_one_is_always_refused() {
    let mut random = Random::new(3);
    let mut made = [0; Way::ALL.len()];
    for i in 0..4_000 {
        let (width, height) = (random.index(90), random.index(20));
        let cut = Cut::good(Kind::ALL[i % 5], &mut random, width, height);
        assert_eq!(cut.number(width, height), None, "{cut:?}");
        for way in Way::ALL {
            let Some(broken) = cut.broken(way, &mut random, width, height) else { continue };
            made[way as usize] += 1;
            let number = broken.number(width, height);
            let eleven = [Way::NoBands, Way::TooManyBands, Way::NoBlockWidth, Way::OddBlockWidth].contains(&way);
            let expected = if eleven { Some(11) } else { Some(12) };
            assert!(number == expected || way == Way::Swapped && number.is_none(), "{way:?}: {broken:?}");
        }
    }
    assert!(made.iter().all(|&made| made > 1_000), "{made:?}");
}
