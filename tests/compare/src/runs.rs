//! Chains and source firings to compare the immediate run on: small runs, runs on both sides of the
//! limit at every node, refused ones, and a few as large as can be.

use crate::analysed;
use crate::records::littered;
use compare::chains::{any_word, within};
use compare::loaded::accepted;
use compare::random::Random;
use compare::rates::minimum;
use compare::small::{make_room, peaked};
use yardstick::{analyse, Chain, Queue, MAX_FIRINGS, MAX_QUEUES, TICKS};

/// The most firings of all nodes in a run that is not meant to be large.
const FEW: u64 = 600;

/// The runs of each kind at each node, for every n.
const REPEATS: usize = 4;

/// A chain and how often its source fires.
pub struct Request {
    pub chain: Chain,
    pub k: u32,
}

/// The counts at the end of a run, from the source on, up to the first that passes the limit.
pub fn counts(chain: &Chain, k: u32) -> Vec<u64> {
    let mut counts = vec![u64::from(k)];
    for queue in &chain.queues[..chain.n as usize] {
        let last = counts[counts.len() - 1];
        if last > u64::from(MAX_FIRINGS) {
            break;
        }
        let [produce, threshold, consume] =
            [queue.produce, queue.threshold, queue.consume].map(u64::from);
        counts.push(match produce * last {
            produced if produced < threshold => 0,
            produced => (produced - threshold) / consume + 1,
        });
    }
    counts
}

/// Whether no count of a run passes the limit.
fn within_limit(chain: &Chain, k: u32) -> bool {
    let counts = counts(chain, k);
    counts.iter().all(|&count| count <= u64::from(MAX_FIRINGS))
}

/// The fewest source firings with which a node fires so often, at least once; none if they are no
/// word.
fn needed(chain: &Chain, node: usize, times: u32) -> Option<u32> {
    let mut needed = times;
    for queue in chain.queues[..node].iter().rev() {
        let [produce, threshold, consume] =
            [queue.produce, queue.threshold, queue.consume].map(u64::from);
        let tokens = threshold + consume * (u64::from(needed) - 1);
        needed = u32::try_from(tokens.div_ceil(produce)).ok()?;
    }
    Some(needed)
}

/// So many source firings, or the most below them with which a run within the limit has few firings
/// in all, where it has too many.
pub fn affordable(chain: &Chain, k: u32, few: u64) -> u32 {
    let small = |k| counts(chain, k).iter().sum::<u64>() <= few;
    if !within_limit(chain, k) || small(k) {
        return k;
    }
    let (mut low, mut high) = (0, k);
    while high - low > 1 {
        let middle = low + (high - low) / 2;
        if small(middle) {
            low = middle;
        } else {
            high = middle;
        }
    }
    low
}

/// A random run of a chain of n queues, no large one.
pub fn any(random: &mut Random, n: usize) -> Request {
    let node = random.below(n + 1);
    let mut request = match random.below(16) {
        0 => Request {
            chain: analysed::any(random, n),
            k: any_word(random),
        },
        1 | 2 => tight(random, n, node.min(n - 1)),
        3 => past(random, n, node),
        4 => past_words(random, n, node.max(1)),
        _ => small(random, n, node),
    };
    if analyse(&request.chain).number == 0 {
        request.k = affordable(&request.chain, request.k, FEW);
    }
    request.chain = littered_if_valid(random, request.chain);
    request
}

/// A chain with litter past n, if it has any slots there.
pub fn littered_if_valid(random: &mut Random, chain: Chain) -> Chain {
    match chain.n as usize {
        1..=MAX_QUEUES => littered(random, chain),
        _ => chain,
    }
}

/// A run in which a node just fires a few times, or just does not.
fn small(random: &mut Random, n: usize, node: usize) -> Request {
    let mut chain = if random.below(2) == 0 {
        accepted(random, n)
    } else {
        peaked(random, n, node)
    };
    make_room(random, &mut chain);
    let times = within(random, 1..=60);
    let k = match random.below(8) {
        0 => random.below(4) as u32,
        _ => needed(&chain, node, times).unwrap_or(times) - random.pick(&[0, 1]),
    };
    Request { chain, k }
}

/// A run of any length on a chain one of whose capacities is below the minimum.
fn tight(random: &mut Random, n: usize, queue: usize) -> Request {
    let mut chain = accepted(random, n);
    if random.below(4) > 0 {
        make_room(random, &mut chain);
    }
    tighten(random, &mut chain.queues[queue]);
    let k = match random.below(3) {
        0 => random.below(100) as u32,
        _ => any_word(random),
    };
    Request { chain, k }
}

/// Gives a valid queue a capacity below its minimum, if there is one that is not 0.
pub fn tighten(random: &mut Random, queue: &mut Queue) {
    let minimum = minimum(queue);
    if minimum > 1 {
        let less = random.below(minimum as usize - 1) as u32;
        queue.capacity = random.pick(&[minimum - 1, 1 + less]);
    }
}

/// A run in which a node passes the limit by exactly one firing, or any node by many.
fn past(random: &mut Random, n: usize, node: usize) -> Request {
    let mut request = at_limit(random, n, node, MAX_FIRINGS + 1);
    if random.below(4) == 0 {
        request.k = random.pick(&[u32::MAX, u32::MAX - 1, 1 << 31, MAX_FIRINGS + 2]);
    }
    request
}

/// A run in which a node is exactly so often fired, not less than the limit, and those before it at
/// most as often as the limit; a queue before it leaves the counts as they are, less a few.
fn at_limit(random: &mut Random, n: usize, node: usize, times: u32) -> Request {
    loop {
        let mut chain = levels(random, n);
        let mut k = times;
        if node > 0 {
            let Some((queue, producer)) = fast(random, times) else {
                continue;
            };
            chain.queues[node - 1] = queue;
            k = producer + lag(&chain.queues[..node - 1]);
        }
        if let Some(behind) = chain.queues[..n].get_mut(node) {
            *behind = slow(random);
        }
        let due = counts(&chain, k).get(node) == Some(&u64::from(times));
        if due && analyse(&chain).number == 0 {
            return Request { chain, k };
        }
    }
}

/// A chain of n queues, all of which leave the counts as they are, less a few.
fn levels(random: &mut Random, n: usize) -> Chain {
    let mut chain = Chain {
        n: n as u32,
        period: *TICKS.end(),
        ..Chain::default()
    };
    for queue in &mut chain.queues[..n] {
        let times = within(random, 1..=4);
        let both = within(random, 1..=65_535 / times);
        *queue = queue_of([both, both * times, both]);
    }
    chain.work[..n].fill(1);
    chain
}

/// By how much the source's count is more than that behind queues that leave counts as they are,
/// less a few.
fn lag(queues: &[Queue]) -> u32 {
    let lags = queues
        .iter()
        .map(|queue| queue.threshold / queue.consume - 1);
    lags.sum()
}

/// A queue whose consumer fires exactly so often when its producer fires as often as given beside
/// it, which is far less; none if its threshold would be out of range.
fn fast(random: &mut Random, times: u32) -> Option<(Queue, u32)> {
    let consume = within(random, 1..=4);
    let produce = within(random, 20..=40_000);
    let producer = (times * consume).div_ceil(produce);
    let most = producer * produce - (times - 1) * consume;
    let least = (most - (consume - 1)).max(consume);
    let threshold = random.pick(&[least, most]);
    let queue = queue_of([produce, threshold, consume]);
    (threshold <= 65_535).then_some((queue, producer))
}

/// A queue whose consumer fires far less often than its producer.
fn slow(random: &mut Random) -> Queue {
    let consume = within(random, 200..=900);
    let threshold = consume + within(random, 0..=100);
    queue_of([1, threshold, consume])
}

/// A queue with its minimum as capacity.
fn queue_of([produce, threshold, consume]: [u32; 3]) -> Queue {
    Queue {
        produce,
        threshold,
        consume,
        capacity: 0,
        reserved: 0,
    }
}

/// A run in which what is put into the queue before a node, not the source, is a little more than a
/// multiple of 2^32, and its consumer's count far past the limit.
fn past_words(random: &mut Random, n: usize, node: usize) -> Request {
    loop {
        let mut chain = levels(random, n);
        let produce = within(random, 4_400..=60_000);
        let consume = within(random, 1..=4);
        let threshold = within(random, consume..=40);
        chain.queues[node - 1] = queue_of([produce, threshold, consume]);
        let words = 1 + random.below(((u64::from(produce) * 1_000_000) >> 32) as usize) as u64;
        let producer = (words << 32).div_ceil(u64::from(produce)) as u32;
        let k = producer + lag(&chain.queues[..node - 1]);
        if analyse(&chain).number == 0 {
            return Request { chain, k };
        }
    }
}

/// Runs that pass the limit by one firing at every node, small runs up to every node, and runs with
/// a capacity below the minimum at every queue, for every n.
pub fn limits(random: &mut Random) -> Vec<Request> {
    let mut requests = Vec::new();
    for n in 1..=MAX_QUEUES {
        for _ in 0..REPEATS {
            for node in 0..=n {
                requests.push(at_limit(random, n, node, MAX_FIRINGS + 1));
                requests.push(small(random, n, node));
            }
            requests.extend((0..n).map(|queue| tight(random, n, queue)));
        }
    }
    for request in &mut requests {
        if analyse(&request.chain).number == 0 {
            request.k = affordable(&request.chain, request.k, FEW);
        }
    }
    requests
}

/// Accepted runs in which each node in turn fires exactly as often as the limit, and two in which
/// all nodes fire about so often, of which the second has 16 queues.
pub fn large(random: &mut Random) -> Vec<Request> {
    let mut requests: Vec<Request> = (0..=MAX_QUEUES)
        .map(|node| {
            let n = random.pick(&[node.max(1), MAX_QUEUES]);
            loop {
                let request = at_limit(random, n, node, MAX_FIRINGS);
                if within_limit(&request.chain, request.k) {
                    break request;
                }
            }
        })
        .collect();
    for n in [1, MAX_QUEUES] {
        let chain = levels(random, n);
        requests.push(Request {
            chain,
            k: MAX_FIRINGS,
        });
    }
    requests
}
