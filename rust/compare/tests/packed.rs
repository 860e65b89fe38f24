//! The comparison of what an outside optimiser packed finds Razvolk as the plain verdict has it, and finds out each wrong verdict.

use compare::packed::compare::{compare, razvolk};
use compare::packed::model::{Fault, check};

#[test]
fn razvolk_is_as_the_plain_verdict() {
    let seen = compare(&razvolk, 0x5eed, 6_000).unwrap_or_else(|difference| panic!("{difference}"));
    println!("{seen}");
    assert!([0, 1, 3, 9, 17, 18, 19, 20, 21].iter().all(|&number| seen.numbers[number] > 50), "{seen}");
    assert!(seen.written > 100 && seen.shorter > 100 && seen.bytes[1] < seen.bytes[0], "{seen}");
}

#[test]
fn the_model_without_a_fault_is_right() {
    compare(&|proposal, scratch| check(Fault::None, proposal, scratch), 2, 600).unwrap_or_else(|d| panic!("{d}"));
}

#[test]
fn each_fault_is_found_out() {
    let found = |fault| compare(&move |proposal, scratch| check(fault, proposal, scratch), 3, 6_000).is_err();
    let missed: Vec<Fault> = Fault::ALL.iter().copied().filter(|&fault| !found(fault)).collect();
    assert!(missed.is_empty(), "not found out: {missed:?}");
}
