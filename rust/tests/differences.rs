//! The smallest inputs of docs/DIFFERENCES.md give what that page says of Razvolk.

use razvolk::bits::Bits;
use razvolk::{Decoder, Refusal};

/// The answer of the direct V0 decoder for a frame of one row without a byte: the count, the samples and the map.
fn without_a_byte(width: usize) -> (Result<u64, Refusal>, Vec<u16>, Vec<u8>) {
    let (mut samples, mut map) = (vec![7; width], vec![9; width]);
    (razvolk::decode_v0_reference_map(&[], &[0], width, 1, &mut samples, &mut map), samples, map)
}

#[test]
fn sizes() {
    assert_eq!(razvolk::decode_v0_reference(&[], &[], 16_385, 0, &mut []), Err(Refusal::TooLarge));
    assert_eq!(razvolk::decode_v2(&[], 16_385, 0, &mut []), Err(Refusal::TooLarge));
    assert_eq!(razvolk::decode_v2(&[], 32, 1, &mut [7; 32]).map_err(|e| (e.number(), e.row())), Err((5, 0)));
    let refused = razvolk::decode_v2(&[], 646, 436, &mut vec![7; 646 * 436]);
    assert_eq!(refused.map_err(|e| (e.number(), e.row())), Err((5, 0)));
}

#[test]
fn decoders() {
    assert_eq!(without_a_byte(1), (Ok(1), vec![7], vec![3]));
    assert_eq!(razvolk::decode_v0(&[], &[0; 3], 1, 3, &mut [7; 3], &mut []), Err(Refusal::ShortMap));
    let refused = razvolk::decode_v0_bands(&[], &[0; 3], 1, 3, &mut [7; 3], &mut [0], 1, 16, &[]);
    assert_eq!(refused, Err(Refusal::BadSteps));
    assert_eq!(razvolk::decode_v0_clean(&[], &[0], 1, 1, &mut [7]), Err(Refusal::EarlyUpward { row: 0 }));
    let mut decoder = Decoder::new();
    assert_eq!(decoder.decode_v0_clean(&[], &[0], 1, 1, &mut [7]), Err(Refusal::EarlyUpward { row: 0 }));
}

#[test]
fn calls_that_samsung_rs_does_not_have() {
    let (_, mut samples, map) = without_a_byte(1);
    let mut runs = [9; 3];
    razvolk::blank_with(&mut samples, &map, 1, 1, 5, &mut runs).expect("blanked");
    assert_eq!((samples, runs), (vec![5], [0, 0, 1]));

    let mut samples = [16_384];
    let exported = razvolk::export_v0(&mut samples, &[1], 1, 1, &mut [0; 3], &mut [0; 64], &mut [0]).expect("blanked");
    assert!(exported.written.is_ok() && samples == [0]);

    let mut planes = [9; 3];
    assert_eq!(razvolk::to_planes(&[0, 1, 2], 3, 1, &mut planes), Ok(()));
    assert_eq!(planes, [0, 2, 1]);

    let refused = razvolk::v0_to_v2(&[], &[0], 40, 1, &mut [7; 40], &mut [9; 40], &mut []);
    assert_eq!(refused, Err(Refusal::BadWidth));

    let mut scratch = [7];
    let refused = razvolk::check_packed(&[0x00, 0x00, 0x80, 0x7f], &[0], 1, 1, &[129], &mut scratch);
    assert_eq!((refused, scratch), (Err(Refusal::OtherSample), [128]));
}

#[test]
fn a_position_goes_on_at_0() {
    let got = razvolk::bits::get(&[1, 2, 3, 4], Bits::new(u64::MAX), 1);
    assert_eq!((got.value, got.bits.pos, got.bits.filler), (1, 3, 1));
}
