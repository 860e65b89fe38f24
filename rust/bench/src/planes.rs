//! Colour planes, both ways, against the plain loops.

use crate::measure::{Contender, best, print};
use compare::planes::{PLAIN, RAZVOLK, Way};
use std::cell::RefCell;
use streams::images::photo;

/// Times both ways on a frame.
pub fn time(width: usize, height: usize, runs: usize) {
    let samples = photo(width, height, 16.0, 1);
    let mut planes = vec![0; samples.len()];
    assert_eq!(PLAIN[0](&samples, width, height, &mut planes), 0);
    let to = RefCell::new(vec![1; samples.len()]);
    let contender = |name, against, way: Way, from: &'_ [u16], expected: &[u16]| {
        to.borrow_mut().fill(1);
        assert!(way(from, width, height, &mut to.borrow_mut()) == 0 && *to.borrow() == expected, "{name}");
        let (from, to) = (from.to_vec(), &to);
        Contender { name, against, run: Box::new(move || way(&from, width, height, &mut to.borrow_mut()) == 0) }
    };
    let mut contenders = vec![
        contender("plain loop, to planes", 0, PLAIN[0], &samples, &planes),
        contender("to_planes", 0, RAZVOLK[0], &samples, &planes),
        contender("plain loop, from planes", 2, PLAIN[1], &planes, &samples),
        contender("from_planes", 2, RAZVOLK[1], &planes, &samples),
    ];
    let best = best(&mut contenders, runs);
    print(&format!("Colour planes: {width} by {height}"), Some(samples.len()), &contenders, &best);
}
