//! Rates, load and minimum as exact numbers: to make chains on both sides of a limit, and to tell
//! what a chain shows.

use yardstick::{Chain, Queue};

/// The largest x and y that are accepted.
pub const LIMIT: u64 = u32::MAX as u64;

/// A node's firings x in y ticks.
#[derive(Clone, Copy, Debug, PartialEq, Eq)]
pub struct Rate {
    pub x: u64,
    pub y: u64,
}

impl Rate {
    /// The rate of the source.
    pub fn source(period: u32) -> Self {
        Rate {
            x: 1,
            y: u64::from(period),
        }
    }

    /// The rate of the consumer of a queue, of which produce and consume are given, from this rate
    /// of its producer, which must be within the limit.
    pub fn behind(self, [produce, consume]: [u32; 2]) -> Self {
        let produced = u64::from(produce) * self.x;
        let g = gcd(produced, u64::from(consume));
        Rate {
            x: produced / g,
            y: u64::from(consume) * self.y / g,
        }
    }

    /// Whether neither x nor y passes the limit.
    pub fn within_limit(self) -> bool {
        self.x <= LIMIT && self.y <= LIMIT
    }
}

/// The rates of N_1 to N_n of a valid chain, up to the first that passes the limit.
pub fn rates(chain: &Chain) -> Vec<Rate> {
    let mut rates = Vec::with_capacity(chain.n as usize);
    let mut rate = Rate::source(chain.period);
    for queue in &chain.queues[..chain.n as usize] {
        rate = rate.behind([queue.produce, queue.consume]);
        rates.push(rate);
        if !rate.within_limit() {
            break;
        }
    }
    rates
}

/// What each tick of a node's execution time adds to the busy ticks of a cycle, node by node, given
/// the rates of all nodes but the source.
pub fn turns(rates: &[Rate]) -> Vec<u128> {
    let cycle = rates.last().map_or(0, |last| last.y);
    let turns = |rate: &Rate| u128::from(rate.x) * u128::from(cycle / rate.y);
    rates.iter().map(turns).collect()
}

/// The busy ticks of each node in a cycle, given the rates of all nodes but the source and as many
/// execution times.
pub fn parts(rates: &[Rate], work: &[u32]) -> Vec<u128> {
    let turns = turns(rates).into_iter().zip(work);
    turns.map(|(turn, &work)| turn * u128::from(work)).collect()
}

/// The minimum of a valid queue.
pub fn minimum(queue: &Queue) -> u32 {
    let g = gcd(u64::from(queue.produce), u64::from(queue.consume)) as u32;
    let below = queue.threshold - 1;
    below - below % g + queue.produce
}

/// The capacity in force of a valid queue.
pub fn capacity(queue: &Queue) -> u32 {
    match queue.capacity {
        0 => minimum(queue),
        capacity => capacity,
    }
}

/// The greatest common divisor of two numbers that are not both 0.
pub fn gcd(a: u64, b: u64) -> u64 {
    match b {
        0 => a,
        _ => gcd(b, a % b),
    }
}
