//! The comparison of V0 into V2, a quick part of it; and converters that are wrong, each of which it must find out.

use compare::call::Difference;
use compare::convert::compare::{Seen, compare, razvolk};
use compare::convert::plain::{Fault, convert};

#[test]
fn razvolk_converts_as_the_plain_converter_does() {
    let seen = compare(&razvolk, 0x5eed, 1_000, 10).unwrap_or_else(|difference| panic!("{difference}"));
    println!("{seen}");
    assert_eq!(seen.frames, 1_000);
    assert!([0, 1, 2, 10].iter().all(|&number| seen.numbers[number] > 40), "{seen}");
    assert!([3, 4, 9, 15, 16].iter().all(|&number| seen.numbers[number] > 40), "{seen}");
    assert!(seen.decoded > 300 && seen.by_samsung_rs > 40, "{seen}");
}

/// The comparison of a converter with a fault.
fn compared(fault: Fault) -> Result<Seen, Difference> {
    compare(&|ask, lent| convert(fault, ask, lent), 7, 300, 10)
}

#[test]
fn the_plain_converter_is_alike() {
    compared(Fault::None).unwrap_or_else(|difference| panic!("{difference}"));
}

#[test]
fn a_wrong_converter_is_found_out() {
    let missed: Vec<Fault> = Fault::ALL.iter().copied().filter(|&fault| compared(fault).is_ok()).collect();
    assert!(missed.is_empty(), "not found out: {missed:?}");
}
