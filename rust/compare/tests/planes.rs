//! Wrong ways, on purpose, are found out.

use compare::planes::{PLAIN, RAZVOLK, Way, compare};

/// Razvolk's ways, with another in the place of one of them.
fn with(way: usize, wrong: Way) -> [Way; 2] {
    let mut ways = RAZVOLK;
    ways[way] = wrong;
    ways
}

#[test]
fn razvolk_is_not_found_out() {
    let seen = compare(RAZVOLK, 1, 2).expect("no difference");
    assert_eq!((seen.frames, seen.refused > 0), (41 * 41 + 2, true));
}

#[test]
fn one_way_for_both() {
    assert!(compare([RAZVOLK[0]; 2], 1, 0).is_err());
    assert!(compare([RAZVOLK[1]; 2], 1, 0).is_err());
}

#[test]
fn planes_in_another_order() {
    let turned: Way = |samples, width, height, planes| {
        // Odd rows and even columns before even rows and odd columns: right where the frame is one row or one column.
        let (even, odd) = (width.div_ceil(2), width / 2);
        let (upper, lower) = (height.div_ceil(2), height / 2);
        let number = RAZVOLK[0](samples, width, height, planes);
        if number == 0 {
            planes[even * upper..][..odd * upper + even * lower].rotate_left(odd * upper);
        }
        number
    };
    assert!(compare(with(0, turned), 1, 0).is_err());
}

#[test]
fn a_tail_that_is_touched() {
    let touched: Way = |planes, width, height, samples| {
        let number = RAZVOLK[1](planes, width, height, samples);
        if number == 0
            && let Some(sample) = samples.get_mut(width * height)
        {
            *sample ^= 1;
        }
        number
    };
    assert!(compare(with(1, touched), 1, 0).is_err());
}

#[test]
fn a_loop_that_refuses_nothing() {
    let careless: Way = |samples, width, height, planes| match samples.len().min(planes.len()) < width * height {
        true => 0,
        false => PLAIN[0](samples, width, height, planes),
    };
    assert!(compare(with(0, careless), 1, 0).is_err());
}
