//! Random chains, and the values on both sides of every limit.

use crate::random::Random;
use std::ops::RangeInclusive;
use yardstick::{Chain, Queue, CAPACITY, MAX_QUEUES, RESERVED, TICKS, TOKENS};

/// The numbers of queues that the limits are tried with.
pub const COUNTS: [usize; 3] = [1, 2, MAX_QUEUES];

/// A threshold and a consume below, at or above it.
pub const AROUND_THRESHOLD: [[u32; 2]; 8] = [
    [1, 1],
    [1, 2],
    [2, 1],
    [7, 6],
    [7, 7],
    [7, 8],
    [65_534, 65_535],
    [65_535, 65_535],
];

/// The values on both sides of each limit of n, of an offset and of a field, and those at the end
/// of a word.
pub const LIMITS: [u32; 18] = [
    0,
    1,
    2,
    15,
    16,
    17,
    19,
    20,
    21,
    24,
    65_535,
    65_536,
    1_000_000,
    1_000_001,
    1 << 31,
    u32::MAX - 19,
    u32::MAX - 3,
    u32::MAX,
];

/// A word that is a limit or next to one more often than not.
pub fn any_word(random: &mut Random) -> u32 {
    match random.below(4) {
        0 => random.word(),
        _ => random.pick(&LIMITS),
    }
}

/// A number of queues, 1 and 16 more often than the others.
pub fn any_count(random: &mut Random) -> usize {
    match random.below(6) {
        0 => 1,
        1 => MAX_QUEUES,
        _ => 1 + random.below(MAX_QUEUES),
    }
}

/// A valid chain of n queues with zeros past n.
pub fn valid(random: &mut Random, n: usize) -> Chain {
    let mut chain = Chain {
        n: n as u32,
        period: within(random, TICKS),
        ..Chain::default()
    };
    for i in 0..n {
        let threshold = within(random, TOKENS);
        chain.queues[i] = Queue {
            produce: within(random, TOKENS),
            threshold,
            consume: within(random, 1..=threshold),
            capacity: within(random, CAPACITY),
            reserved: 0,
        };
        chain.work[i] = within(random, TICKS);
    }
    chain
}

/// A valid chain of n queues with zeros past n, in which thresholds and consumes are so far apart
/// that a change of one word never makes a consume pass its threshold.
pub fn wide(n: usize) -> Chain {
    let mut chain = Chain {
        n: n as u32,
        period: 1_000,
        ..Chain::default()
    };
    for i in 0..n {
        let row = i as u32;
        chain.queues[i] = Queue {
            produce: 1 + row,
            threshold: 65_535,
            consume: 1,
            capacity: 100 + row,
            reserved: 0,
        };
        chain.work[i] = 200 + row;
    }
    chain
}

/// A value out of the range of a queue's field, by its place in the row.
pub fn bad_field(random: &mut Random, field: usize) -> u32 {
    let ranges = [TOKENS, TOKENS, TOKENS, CAPACITY, RESERVED];
    outside(random, ranges[field].clone())
}

/// A threshold and a consume above it, both in range.
pub fn above_threshold(random: &mut Random) -> [u32; 2] {
    let threshold = 1 + random.below(65_534) as u32;
    [threshold, random.pick(&[threshold + 1, 65_535])]
}

/// A value that is not in a range.
pub fn outside(random: &mut Random, range: RangeInclusive<u32>) -> u32 {
    let (low, high) = range.into_inner();
    match random.below(4) {
        0 if low > 0 => low - 1,
        1 => u32::MAX,
        2 => high + 1 + random.below((u32::MAX - high) as usize) as u32,
        _ => high + 1,
    }
}

/// A value of a range, its ends more often than the others.
pub fn within(random: &mut Random, range: RangeInclusive<u32>) -> u32 {
    let (low, high) = range.into_inner();
    match random.below(6) {
        0 => low,
        1 => high,
        _ => low + random.below((high - low + 1) as usize) as u32,
    }
}
