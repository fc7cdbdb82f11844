//! Random accepted chains in which much happens within few ticks: small numbers, a short period, and
//! a load that is steered.

use crate::chains::within;
use crate::loaded::load;
use crate::random::Random;
use crate::rates::{minimum, Rate};
use crate::small::bare;
use std::ops::RangeInclusive;
use yardstick::{analyse, Chain, Queue, CAPACITY};

/// The most tokens that a firing puts in or takes out, and the most by which a threshold is above
/// its consume.
const MOST_TOKENS: u32 = 8;

/// How often a pair of produce and consume is looked for.
const TRIES: usize = 4;

/// How much of a cycle the nodes are busy.
#[derive(Clone, Copy, PartialEq, Eq)]
pub enum Load {
    /// A quarter at most.
    Light,
    /// Any part.
    Any,
    /// Nine tenths or more.
    Heavy,
    /// All of it.
    Full,
}

/// All loads.
const LOADS: [Load; 4] = [Load::Light, Load::Any, Load::Heavy, Load::Full];

impl Load {
    /// The busy ticks of a cycle.
    fn busy(self, cycle: u128) -> RangeInclusive<u128> {
        match self {
            Load::Light => 0..=cycle / 4,
            Load::Any => 0..=cycle,
            Load::Heavy => cycle - cycle / 10..=cycle,
            Load::Full => cycle..=cycle,
        }
    }

    /// Into how many parts a cycle is cut of which all nodes together may take one with execution
    /// times of a tick.
    fn parts(self) -> u64 {
        match self {
            Load::Light => 4,
            _ => 1,
        }
    }
}

/// A random accepted chain of n queues with any load, no capacity of which is below its minimum.
pub fn brisk(random: &mut Random, n: usize) -> Chain {
    let load = random.pick(&LOADS);
    loaded(random, n, load)
}

/// A random accepted chain of n queues with a load, no capacity of which is below its minimum.
pub fn loaded(random: &mut Random, n: usize, wanted: Load) -> Chain {
    loop {
        let mut chain = unloaded(random, n, wanted.parts());
        load(random, &mut chain, |cycle| wanted.busy(cycle));
        if analyse(&chain).number == 0 {
            return chain;
        }
    }
}

/// A chain of n queues in which an execution time of one tick for every node takes no more than one
/// of so many parts of a cycle; its nodes have no execution time yet.
fn unloaded(random: &mut Random, n: usize, parts: u64) -> Chain {
    let mut chain = Chain {
        n: n as u32,
        period: within(random, 1..=4 * n as u32),
        ..Chain::default()
    };
    let mut rate = Rate::source(chain.period);
    for queue in &mut chain.queues[..n] {
        let pair = slow_pair(random, rate, n as u64 * parts);
        rate = rate.behind(pair);
        *queue = roomy(random, pair);
    }
    chain
}

/// A small produce and consume whose consumer fires at most once in so many ticks, given the rate of
/// its producer.
fn slow_pair(random: &mut Random, rate: Rate, ticks: u64) -> [u32; 2] {
    let slow = |rate: Rate| rate.within_limit() && rate.x * ticks <= rate.y;
    for _ in 0..TRIES {
        let pair = [0, 0].map(|_| within(random, 1..=MOST_TOKENS));
        if slow(rate.behind(pair)) {
            return pair;
        }
    }
    [1, (rate.x * ticks).div_ceil(rate.y) as u32]
}

/// A queue of a produce and a consume with a capacity of 0, of the minimum, or above it.
pub fn roomy(random: &mut Random, pair: [u32; 2]) -> Queue {
    let queue = bare(random, pair, MOST_TOKENS);
    with_room(random, queue)
}

/// A queue with a capacity of 0, of the minimum, or above it.
pub fn with_room(random: &mut Random, mut queue: Queue) -> Queue {
    let minimum = minimum(&queue);
    queue.capacity = match random.below(6) {
        0 | 1 => 0,
        2 => minimum,
        3 | 4 => minimum + within(random, 1..=MOST_TOKENS),
        _ => *CAPACITY.end(),
    };
    queue
}
