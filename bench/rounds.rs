//! Times calls beside one another.

use std::time::Instant;

/// Nanoseconds for one call, over a round of them.
fn round(call: &mut dyn FnMut(), count: u32) -> f64 {
    let start = Instant::now();
    (0..count).for_each(|_| call());
    start.elapsed().as_nanos() as f64 / f64::from(count)
}

/// How many calls make a round of a millisecond or more.
fn count(call: &mut dyn FnMut()) -> u32 {
    let mut count = 1;
    while round(call, count) * f64::from(count) < 1e6 {
        count *= 2;
    }
    count
}

/// Nanoseconds for one call of each, the least of 25 rounds. They take turns, so that a slow spell meets all.
pub fn times<const N: usize>(mut calls: [&mut dyn FnMut(); N]) -> [f64; N] {
    let counts = calls.each_mut().map(|call| count(call));
    let mut least = [f64::INFINITY; N];
    for _ in 0..25 {
        for ((call, count), least) in calls.iter_mut().zip(counts).zip(&mut least) {
            *least = least.min(round(call, count));
        }
    }
    least
}
