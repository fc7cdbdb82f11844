//! Random chains whose rates are steered: within the limit, to it, or past it at a node and for a
//! reason that is chosen.

use crate::chains::within;
use crate::random::Random;
use crate::rates::{gcd, minimum, Rate};
use yardstick::{Chain, Queue, CAPACITY, MAX_QUEUES, TICKS, TOKENS};

/// The most tokens of a field.
const MOST_TOKENS: u32 = *TOKENS.end();

/// Numbers with many divisors, so that rates grow and shrink again.
const SMOOTH: [u32; 12] = [1, 2, 3, 4, 6, 12, 60, 256, 720, 2_520, 32_768, 55_440];

/// Numbers at the ends of the range of tokens and the primes next to its upper end.
const EXTREME: [u32; 10] = [
    1, 2, 3, 32_749, 32_768, 65_519, 65_521, 65_533, 65_534, 65_535,
];

/// Primes next to the upper end of the range of tokens; the product of any two is within the limit.
const LARGE_PRIMES: [u32; 4] = [65_497, 65_519, 65_521, 65_479];

/// Which of a rate's two numbers passes the limit.
#[derive(Clone, Copy, PartialEq, Eq)]
pub enum Side {
    X,
    Y,
    Both,
}

/// The nearest that a number of a rate comes to its limit.
///
/// The limit is 3 x 5 x 17 x 257 x 65,537. A y has it from a period that is a multiple of 65,537.
/// An x is a product of produces, none of which has a prime factor above 65,535: neither the limit
/// nor the two numbers below it (2 x 2,147,483,647 and 9,241 x 464,773) are such products, but the
/// next one is, and so is the first number past the limit, a power of 2.
#[derive(Clone, Copy)]
pub enum Edge {
    YLast,
    YPast,
    XLast,
    XPast,
}

/// All edges.
pub const EDGES: [Edge; 4] = [Edge::YLast, Edge::YPast, Edge::XLast, Edge::XPast];

/// The edges that every node can come to.
pub const Y_EDGES: [Edge; 2] = [Edge::YLast, Edge::YPast];

/// The largest x that a rate within the limit has.
pub const LAST_X: u64 = 4_294_967_292;

/// The lowest node whose x may pass the limit, or come nearest to it: that of N_2 is at most 65,535
/// x 65,535.
pub const FIRST_LARGE_X: usize = 3;

/// A queue of a produce and a consume, its threshold and capacity often next to where the minimum,
/// the naming count or the margin's sign changes.
fn queue(random: &mut Random, [produce, consume]: [u32; 2]) -> Queue {
    let mut queue = Queue {
        produce,
        threshold: any_threshold(random, produce, consume),
        consume,
        capacity: 0,
        reserved: 0,
    };
    queue.capacity = any_capacity(random, minimum(&queue));
    queue
}

/// A threshold that is not below the consume.
fn any_threshold(random: &mut Random, produce: u32, consume: u32) -> u32 {
    let room = MOST_TOKENS - consume;
    let g = gcd(u64::from(produce), u64::from(consume)) as u32;
    let multiple = |random: &mut Random, step: u32| {
        let times = random.below((room / step) as usize + 1) as u32;
        step * times + random.pick(&[0, 0, 1, step - 1])
    };
    let more = match random.below(8) {
        0 => 0,
        1 => room,
        2 | 3 => multiple(random, g),
        4 | 5 => multiple(random, produce),
        6 => random.below(8) as u32,
        _ => random.below(room as usize + 1) as u32,
    };
    consume + more.min(room)
}

/// A capacity: none, the minimum, next to it, or any.
fn any_capacity(random: &mut Random, minimum: u32) -> u32 {
    match random.below(8) {
        0 | 1 => 0,
        2 => minimum,
        3 => minimum - 1,
        4 => minimum + 1,
        _ => within(random, CAPACITY),
    }
}

/// A chain of a period and of pairs of produce and consume; its nodes have no execution time yet.
pub fn chain_of(random: &mut Random, period: u32, pairs: &[[u32; 2]]) -> Chain {
    let mut chain = Chain {
        n: pairs.len() as u32,
        period,
        ..Chain::default()
    };
    for (slot, &pair) in chain.queues.iter_mut().zip(pairs) {
        *slot = queue(random, pair);
    }
    chain
}

/// A chain of n queues in which the rate of every node fits, as that of the source does.
pub fn walk(random: &mut Random, n: usize, period: u32, fits: impl Fn(Rate) -> bool) -> Chain {
    let mut rate = Rate::source(period);
    let mut pairs = Vec::with_capacity(n);
    for _ in 0..n {
        let pair = fitting(random, rate, &fits);
        rate = rate.behind(pair);
        pairs.push(pair);
    }
    chain_of(random, period, &pairs)
}

/// A produce and a consume whose consumer's rate fits, given the producer's, which does.
fn fitting(random: &mut Random, rate: Rate, fits: impl Fn(Rate) -> bool) -> [u32; 2] {
    for _ in 0..4 {
        let pair = any_pair(random, rate.x);
        if fits(rate.behind(pair)) {
            return pair;
        }
    }
    level(random)
}

/// A produce and a consume that leave the rate as it is.
pub fn level(random: &mut Random) -> [u32; 2] {
    let both = within(random, TOKENS);
    [both, both]
}

/// Any produce and consume: small, with many divisors, at the ends of the range, a consume that
/// divides the producer's x or is a multiple of it, or all of the range.
fn any_pair(random: &mut Random, x: u64) -> [u32; 2] {
    match random.below(8) {
        0 | 1 => [0, 0].map(|_| 1 + random.below(4) as u32),
        2 | 3 => [0, 0].map(|_| random.pick(&SMOOTH)),
        4 => [0, 0].map(|_| random.pick(&EXTREME)),
        5 | 6 => shrinking(random, x),
        _ => [0, 0].map(|_| within(random, TOKENS)),
    }
}

/// A produce and a consume that make a producer's x smaller where they can.
fn shrinking(random: &mut Random, x: u64) -> [u32; 2] {
    let divisor = match random.below(2) {
        0 => x,
        _ => gcd(x, u64::from(random.pick(&SMOOTH))),
    };
    let divisor = divisor.min(u64::from(MOST_TOKENS)) as u32;
    let produce = 1 + random.below((MOST_TOKENS / divisor) as usize) as u32;
    let consume = produce * divisor;
    let times = 1 + random.below((MOST_TOKENS / consume).min(4) as usize) as u32;
    [produce, consume * times]
}

/// A chain of n queues that comes to an edge at a node and for the first time there. Behind it, the
/// rates stay or are any.
pub fn at_edge(random: &mut Random, n: usize, node: usize, edge: Edge) -> Chain {
    let (period, mut factors) = factors(random, edge);
    let last = factors.pop().unwrap_or(1);
    let mut growths = spread(random, &factors, node, last);
    growths.resize(n, 1);
    let mut pairs: Vec<[u32; 2]> = growths
        .into_iter()
        .map(|growth| growing(random, edge, growth))
        .collect();
    if random.below(2) == 0 {
        pairs[node..].fill_with(|| any_pair(random, 1));
    }
    chain_of(random, period, &pairs)
}

/// A chain of n queues, at least 3, whose sink has an x of ten digits in as many ticks as the limit,
/// and which is not overloaded if its execution times are 1.
pub fn widest(random: &mut Random, n: usize) -> Chain {
    let (period, factors) = factors(random, Edge::YLast);
    let slower = spread(random, &factors, n - 2, 1);
    let faster = [0, 0].map(|_| 32_000 + random.below(31_000) as u32);
    let mut pairs = Vec::with_capacity(n);
    pairs.extend(
        slower
            .into_iter()
            .map(|growth| growing(random, Edge::YLast, growth)),
    );
    pairs.extend(faster.map(|growth| growing(random, Edge::XLast, growth)));
    chain_of(random, period, &pairs)
}

/// A period and the factors by which the steered number of a rate grows to an edge.
fn factors(random: &mut Random, edge: Edge) -> (u32, Vec<u32>) {
    match edge {
        Edge::YLast => match random.below(4) {
            0 => (65_537, vec![3, 5, 17, 257]),
            1 => (65_537 * 3, vec![5, 17, 257]),
            2 => (65_537 * 5, vec![3, 17, 257]),
            _ => (65_537 * 15, vec![17, 257]),
        },
        Edge::YPast => {
            let bits = 17 + random.below(3);
            (1 << bits, vec![2; 32 - bits])
        }
        Edge::XLast => (within(random, TICKS), vec![2, 2, 3, 3, 7, 11, 31, 151, 331]),
        Edge::XPast => (within(random, TICKS), vec![2; 32]),
    }
}

/// Spreads factors over the growths of so many nodes, of which the last grows by a factor of its
/// own, none by more than a field holds. There must be room for them.
fn spread(random: &mut Random, factors: &[u32], nodes: usize, last: u32) -> Vec<u32> {
    let mut growths = vec![1; nodes];
    growths[nodes - 1] = last;
    for factor in factors {
        let mut node = random.below(nodes);
        while growths[node] * factor > MOST_TOKENS {
            node = (node + 1) % nodes;
        }
        growths[node] *= factor;
    }
    growths
}

/// A produce and a consume by which a rate grows towards an edge; its x must be 1 if it is its y
/// that grows.
fn growing(random: &mut Random, edge: Edge, growth: u32) -> [u32; 2] {
    let less = 1 + random.below((MOST_TOKENS / growth) as usize) as u32;
    let more = less * growth;
    match edge {
        Edge::YLast | Edge::YPast => [less, more],
        Edge::XLast | Edge::XPast => [more, less],
    }
}

/// A chain of n queues that passes the limit far at a node, for the first time and on the side that
/// is given, which for a node before `FIRST_LARGE_X` must be y. What is behind is any.
pub fn past(random: &mut Random, n: usize, node: usize, side: Side) -> Chain {
    let period = 70_000 + random.below(930_001) as u32;
    let mut pairs = vec![[1, 1]; n];
    pairs.fill_with(|| level(random));
    if side != Side::Y {
        let first = random.below(node - 2);
        let second = first + 1 + random.below(node - 2 - first);
        for fast in [first, second] {
            pairs[fast] = [60_000 + random.below(5_000) as u32, 1];
        }
    }
    let fast = 2 + random.below(60_000) as u32;
    let slow = random.pick(&LARGE_PRIMES);
    pairs[node - 1] = match side {
        Side::X => [fast, 1],
        Side::Y => [1, slow],
        Side::Both => [fast, slow],
    };
    pairs[node..].fill_with(|| any_pair(random, 1 << 31));
    chain_of(random, period, &pairs)
}

/// A chain of n queues whose first nodes fire far more often than its last ones, so that the busy
/// ticks of a cycle are as many as can be.
pub fn uneven(random: &mut Random, n: usize) -> Chain {
    let period = random.pick(&[1, 2, 3, 70_000, 1_000_000]);
    let fast = 1 + random.below(2);
    let mut rate = Rate::source(period);
    let mut pairs = Vec::with_capacity(n);
    for i in 0..n {
        let much = MOST_TOKENS - random.below(64) as u32;
        let steep = if i < fast {
            [much, 1]
        } else {
            [1, random.pick(&LARGE_PRIMES)]
        };
        let pair = if rate.behind(steep).within_limit() {
            steep
        } else {
            level(random)
        };
        rate = rate.behind(pair);
        pairs.push(pair);
    }
    chain_of(random, period, &pairs)
}

/// A period of at least as many ticks as a chain may have queues.
pub fn slow_period(random: &mut Random) -> u32 {
    match random.below(4) {
        0 => MAX_QUEUES as u32 + random.below(64) as u32,
        1 => 65_537 * (1 + random.below(15) as u32),
        _ => within(random, MAX_QUEUES as u32..=*TICKS.end()),
    }
}
