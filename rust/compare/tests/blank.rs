//! Wrong ways of blanking, on purpose, are found out.

use compare::blank::{Fault, compare, faulty, razvolk};

#[test]
fn razvolk_is_not_found_out() {
    let seen = compare(&razvolk, 1, 2_000).expect("no difference");
    assert_eq!(seen.frames, 2_000);
    assert!([0, 1, 3, 4, 9, 10, 13, 14].iter().all(|&number: &usize| seen.numbers[number] > 0), "{seen}");
}

#[test]
fn every_fault_is_found_out() {
    assert!(compare(&faulty(Fault::None), 1, 200).is_ok());
    for &fault in Fault::ALL {
        assert!(compare(&faulty(fault), 1, 2_000).is_err(), "{fault:?}");
    }
}
