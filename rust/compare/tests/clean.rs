//! The comparison of clean frames finds Razvolk as the plain verdict has it, and finds out each wrong decoder.

use compare::clean::compare::{compare, razvolk};
use compare::clean::model::{Fault, decode};

#[test]
fn razvolk_is_as_the_plain_verdict() {
    let seen = compare(&razvolk, 1, 500).unwrap_or_else(|difference| panic!("{difference}"));
    assert!(seen.numbers.iter().all(|&count| count > 100), "{seen}");
    assert!(seen.taken > 100 && seen.several > 100 && seen.narrow > 50, "{seen}");
}

#[test]
fn the_model_without_a_fault_is_right() {
    compare(&|frame, samples, map| decode(Fault::None, frame, samples, map), 2, 500).unwrap_or_else(|d| panic!("{d}"));
}

#[test]
fn each_fault_is_found_out() {
    for &fault in Fault::ALL {
        let wrong = compare(&move |frame, samples, map| decode(fault, frame, samples, map), 3, 500);
        assert!(wrong.is_err(), "{fault:?} was not found out");
    }
}
