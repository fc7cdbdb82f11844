//! Random chains whose load is steered: by their execution times to any number of busy ticks in a
//! cycle.

use crate::chains::within;
use crate::random::Random;
use crate::rates::{gcd, rates, turns, Rate};
use crate::steered::{chain_of, level, slow_period, walk};
use std::cmp::Reverse;
use std::ops::RangeInclusive;
use yardstick::{Chain, TICKS};

/// How often execution times are looked for.
const TRIES: usize = 8;

/// A random chain of n queues that the analysis accepts.
pub fn accepted(random: &mut Random, n: usize) -> Chain {
    let mut chain = slow(random, n);
    let rates = rates(&chain);
    for (work, rate) in chain.work.iter_mut().zip(&rates) {
        let share = rate.y / (rate.x * n as u64);
        *work = within(random, 1..=share.min(u64::from(*TICKS.end())) as u32);
    }
    chain
}

/// A chain of n queues in which an execution time of one tick is no more than the n-th part of the
/// load, whatever the node; its nodes have no execution time yet.
pub fn slow(random: &mut Random, n: usize) -> Chain {
    let period = slow_period(random);
    let fits = |rate: Rate| rate.within_limit() && rate.x * n as u64 <= rate.y;
    walk(random, n, period, fits)
}

/// A chain of n queues, at least 3, in which only N_1 is busy for longer than the cycle, and by a
/// number that is half a cycle at most if it is cut to 64 bits.
pub fn lone(random: &mut Random, n: usize) -> Chain {
    let (pairs, work) = loop {
        let [often, seldom, more_seldom] =
            [4_600..=16_000, 64_000..=65_535, 64_000..=65_535].map(|range| within(random, range));
        let cycle = u128::from(seldom) * u128::from(more_seldom);
        let turns = u128::from(often) * cycle;
        let most = turns * u128::from(*TICKS.end());
        let wide = u128::from(within(random, 1..=(most >> 64) as u32)) << 64;
        let work = wide.div_ceil(turns);
        let coprime = gcd(u64::from(often), cycle as u64) == 1;
        if coprime && work * turns - wide <= cycle / 2 {
            break ([[often, 1], [1, seldom], [1, more_seldom]], work);
        }
    };
    let mut pairs = pairs.to_vec();
    pairs.resize_with(n, || level(random));
    let mut chain = chain_of(random, 1, &pairs);
    chain.work[..n].fill(1);
    chain.work[0] = work as u32;
    chain
}

/// Gives a valid chain any execution times.
pub fn load_any(random: &mut Random, chain: &mut Chain) {
    for work in &mut chain.work[..chain.n as usize] {
        *work = within(random, TICKS);
    }
}

/// Gives a valid chain execution times with which the busy ticks of a cycle are in a range that
/// depends on the cycle; any execution times where none are found or a rate passes the limit.
pub fn load(random: &mut Random, chain: &mut Chain, wanted: impl Fn(u128) -> RangeInclusive<u128>) {
    let rates = rates(chain);
    let Some(last) = rates.last().filter(|last| last.within_limit()) else {
        return load_any(random, chain);
    };
    let wanted = wanted(u128::from(last.y));
    let turns = turns(&rates);
    let mut order: Vec<usize> = (0..turns.len()).collect();
    order.sort_by_key(|&node| Reverse(turns[node]));
    match (0..TRIES).find_map(|_| filled(random, &turns, &order, &wanted)) {
        Some(work) => chain.work[..work.len()].copy_from_slice(&work),
        None => load_any(random, chain),
    }
}

/// Execution times with which the busy ticks of a cycle are in a range, as close to its end as can
/// be; none if these are not found. What one tick of each node adds is given, and the nodes from
/// the one that adds most.
fn filled(
    random: &mut Random,
    turns: &[u128],
    order: &[usize],
    wanted: &RangeInclusive<u128>,
) -> Option<Vec<u32>> {
    let mut work = vec![1; turns.len()];
    let mut left = wanted.end().checked_sub(turns.iter().sum())?;
    let greedy = random.below(2) == 0;
    for &node in order {
        let most = (left / turns[node]).min(u128::from(*TICKS.end() - 1)) as u32;
        let more = if greedy || random.below(2) == 0 {
            most
        } else {
            within(random, 0..=most)
        };
        work[node] += more;
        left -= turns[node] * u128::from(more);
    }
    (left <= wanted.end() - wanted.start()).then_some(work)
}
