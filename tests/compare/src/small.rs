//! Random accepted chains of small numbers, in which every node soon fires.

use crate::chains::within;
use crate::random::Random;
use crate::rates::minimum;
use yardstick::{analyse, Chain, Queue, TICKS};

/// The most tokens that a firing puts in or takes out, and the most by which a threshold is above
/// its consume.
const MOST_TOKENS: u32 = 6;

/// A random accepted chain of n queues, at most 4, with any small numbers.
pub fn small(random: &mut Random, n: usize) -> Chain {
    accepted_of(random, |random| {
        let pair = |_| [0, 0].map(|_| within(random, 1..=MOST_TOKENS));
        (0..n).map(pair).collect()
    })
}

/// A random accepted chain of n queues in which no node fires more often than a given one: before it
/// rates stay or double, behind it they stay or halve.
pub fn peaked(random: &mut Random, n: usize, node: usize) -> Chain {
    accepted_of(random, |random| {
        let pair = |i| {
            let less = within(random, 1..=MOST_TOKENS);
            let more = less * random.pick(&[1, 1, 2]);
            if i < node {
                [more, less]
            } else {
                [less, more]
            }
        };
        (0..n).map(pair).collect()
    })
}

/// A random accepted chain of pairs of produce and consume.
fn accepted_of(random: &mut Random, pairs: impl Fn(&mut Random) -> Vec<[u32; 2]>) -> Chain {
    loop {
        let pairs = pairs(random);
        let mut chain = Chain {
            n: pairs.len() as u32,
            period: *TICKS.end(),
            ..Chain::default()
        };
        for (i, pair) in pairs.into_iter().enumerate() {
            chain.queues[i] = queue(random, pair);
            chain.work[i] = within(random, 1..=3);
        }
        if analyse(&chain).number == 0 {
            return chain;
        }
    }
}

/// A queue of a produce and a consume, with a threshold of the consume and at most so much more, and no capacity yet.
pub fn bare(random: &mut Random, [produce, consume]: [u32; 2], more: u32) -> Queue {
    Queue {
        produce,
        threshold: consume + within(random, 0..=more),
        consume,
        capacity: 0,
        reserved: 0,
    }
}

/// A queue of a produce and a consume, with a capacity of 0, around the minimum, or above it.
fn queue(random: &mut Random, pair: [u32; 2]) -> Queue {
    let mut queue = bare(random, pair, MOST_TOKENS);
    let minimum = minimum(&queue);
    queue.capacity = match random.below(6) {
        0 | 1 => 0,
        2 => minimum - 1,
        3 => minimum,
        _ => minimum + within(random, 1..=4 * MOST_TOKENS),
    };
    queue
}

/// Gives every queue of a valid chain whose capacity is below its minimum another: 0, the minimum,
/// or more.
pub fn make_room(random: &mut Random, chain: &mut Chain) {
    for queue in &mut chain.queues[..chain.n as usize] {
        let minimum = minimum(queue);
        if (1..minimum).contains(&queue.capacity) {
            queue.capacity = random.pick(&[0, minimum, minimum + 1, 1_000_000]);
        }
    }
}
