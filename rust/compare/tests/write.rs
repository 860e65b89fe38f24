//! The comparison of V0's writer, a quick part of it; and writers that are wrong, each of which it must find out.

use compare::call::Difference;
use compare::write::compare::{Seen, compare, razvolk};
use compare::write::plain::{Ask, Fault, write};

#[test]
fn razvolk_writes_v0_as_the_plain_writer_does() {
    let seen = compare(&razvolk, 0x5eed, 4_000).unwrap_or_else(|difference| panic!("{difference}"));
    println!("{seen}");
    assert_eq!((seen.frames, seen.decoded), (4_000, 4_000 * 6));
    assert!([0, 1, 3, 9, 10].iter().all(|&number| seen.numbers[number] > 100), "{seen}");
    assert!(seen.lengths.iter().all(|&count| count > 1_000) && seen.past > 1_000, "{seen}");
}

/// The comparison of a writer with a fault.
fn compared(fault: Fault) -> Result<Seen, Difference> {
    compare(&|ask, stream, offsets| write(fault, ask, stream, offsets), 7, 4_000)
}

#[test]
fn the_plain_writer_is_alike() {
    compared(Fault::None).unwrap_or_else(|difference| panic!("{difference}"));
}

#[test]
fn a_wrong_writer_is_found_out() {
    let missed: Vec<Fault> = Fault::ALL.iter().copied().filter(|&fault| compared(fault).is_ok()).collect();
    assert!(missed.is_empty(), "not found out: {missed:?}");
}

/// What is written and decodes back need not be what was asked for: these are found by their bytes alone.
#[test]
fn a_writer_whose_frames_decode_back_is_found_out_by_its_bytes() {
    let decodes_back = [
        Fault::OnePastTheEnd,
        Fault::LengthsFromOne,
        Fault::LengthsOneMore,
        Fault::OneLengthForAll,
        Fault::KeepsLengths,
        Fault::PadsWithOnes,
        Fault::PadsTo16Bytes,
        Fault::GapBetweenRows,
    ];
    for fault in decodes_back {
        let samples: Vec<u16> = (0..33 * 5).map(|i| i * 97 % 16_384).collect();
        let ask = Ask { samples: &samples, width: 33, height: 5 };
        let (mut stream, mut offsets, mut back) = (vec![0; 4_000], [0; 5], vec![7; samples.len()]);
        let length = write(fault, &ask, &mut stream, &mut offsets).length;
        reference::decode_v0_reference(&stream[..length], &offsets, 33, 5, &mut back).expect("done");
        assert!(back == samples, "{fault:?}");
    }
}
