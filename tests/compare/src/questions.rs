//! Chains, nodes and indexes to compare the deadline question on: of small indexes and of any, and
//! on both sides of the limit at every node on the way down to the source.

use crate::analysed;
use crate::firings::any_node;
use crate::records::littered;
use crate::runs::{littered_if_valid, tighten};
use compare::chains::{any_word, within};
use compare::loaded::accepted;
use compare::random::Random;
use compare::small::make_room;
use compare::timed::{brisk, roomy};
use yardstick::{analyse, deadline, Chain, MAX_QUEUES, TICKS};

/// The questions of each kind at each node, for every n.
const REPEATS: usize = 3;

/// A chain, a node, and the index of its firing.
pub struct Question {
    pub chain: Chain,
    pub node: u32,
    pub index: u32,
}

/// A random question on a chain of n queues.
pub fn any(random: &mut Random, n: usize) -> Question {
    let node = random.below(n + 1);
    match random.below(16) {
        0 => unrelated(random, n, node),
        1 => tight(random, n, node),
        2..=4 => {
            let node = node.max(1);
            let place = random.below(node + 1);
            at_limit(random, n, node, place)
        }
        _ => roomy_question(random, n, node),
    }
}

/// Questions on both sides of the limit at every node on the way from every node, on a chain whose
/// capacity is too small at every queue, and of every node, for every n.
pub fn limits(random: &mut Random) -> Vec<Question> {
    let mut questions = Vec::new();
    for n in 1..=MAX_QUEUES {
        for _ in 0..REPEATS {
            for node in 1..=n {
                for place in 0..=node {
                    questions.push(at_limit(random, n, node, place));
                    questions.extend(around_limit(random, n, node, place));
                }
                questions.push(tight(random, n, node - 1));
            }
            questions.extend((0..=n).map(|node| roomy_question(random, n, node)));
        }
    }
    questions
}

/// Any chain, and an index that has nothing to do with it.
fn unrelated(random: &mut Random, n: usize, node: usize) -> Question {
    let chain = analysed::any(random, n);
    Question {
        chain: littered_if_valid(random, chain),
        node: any_node(random, n, node),
        index: any_word(random),
    }
}

/// A question on a chain one of whose capacities is below the minimum.
fn tight(random: &mut Random, n: usize, queue: usize) -> Question {
    let mut question = roomy_question(random, n, queue);
    tighten(random, &mut question.chain.queues[queue.min(n - 1)]);
    question
}

/// A question on a chain none of whose capacities is below the minimum.
fn roomy_question(random: &mut Random, n: usize, node: usize) -> Question {
    let mut chain = if random.below(2) == 0 {
        brisk(random, n)
    } else {
        accepted(random, n)
    };
    make_room(random, &mut chain);
    Question {
        index: any_index(random, &chain, node),
        chain: littered(random, chain),
        node: any_node(random, n, node),
    }
}

/// An index: none, small, any, or on one side of the last whose deadline can be had.
fn any_index(random: &mut Random, chain: &Chain, node: usize) -> u32 {
    match random.below(8) {
        0 => 0,
        1 | 2 => 1 + random.below(64) as u32,
        3 => random.pick(&[1, u32::MAX, u32::MAX - 1]),
        4 | 5 => around_last(random, chain, node),
        _ => random.word() >> random.below(32),
    }
}

/// The last index of a node's firing whose deadline can be had, or one next to it.
fn around_last(random: &mut Random, chain: &Chain, node: usize) -> u32 {
    let last = last_index(chain, node);
    random.pick(&[last - 1, last, last.saturating_add(1)])
}

/// The last index of a node's firing whose deadline can be had.
fn last_index(chain: &Chain, node: usize) -> u32 {
    let had = |index| deadline(chain, node as u32, index).number == 0;
    let (mut last, mut past) = (1, u32::MAX);
    if had(past) {
        return past;
    }
    while past - last > 1 {
        let middle = last + (past - last) / 2;
        if had(middle) {
            last = middle;
        } else {
            past = middle;
        }
    }
    last
}

/// A question around the limit for a node other than the source, on a chain that comes to the limit
/// at a node on the way.
fn at_limit(random: &mut Random, n: usize, node: usize, place: usize) -> Question {
    let growth = random.pick(&[1, 2, 7]);
    let chain = limiting(random, n, place, growth);
    Question {
        index: around_last(random, &chain, node),
        chain: littered(random, chain),
        node: node as u32,
    }
}

/// The questions on both sides of the limit for a node other than the source, on a chain that comes
/// exactly to the limit at a node on the way.
fn around_limit(random: &mut Random, n: usize, node: usize, place: usize) -> [Question; 2] {
    let chain = limiting(random, n, place, 1);
    let last = last_index(&chain, node);
    [last, last.saturating_add(1)].map(|index| Question {
        chain: littered(random, chain),
        node: node as u32,
        index,
    })
}

/// An accepted chain of n queues in which, on the way down from a node, the index of a given node is
/// the first that comes to the limit: behind it the queues leave the indexes as they are, but for a
/// few more, the queue after it makes them so many times more, and the one before it half as many.
fn limiting(random: &mut Random, n: usize, place: usize, growth: u32) -> Chain {
    loop {
        let mut chain = Chain {
            n: n as u32,
            period: *TICKS.end(),
            ..Chain::default()
        };
        for (i, queue) in chain.queues[..n].iter_mut().enumerate() {
            let both = within(random, 1..=8);
            let pair = match i {
                _ if i == place => [both, both * growth],
                _ if i + 1 == place => [both * 2, both],
                _ => [both, both],
            };
            *queue = roomy(random, pair);
        }
        chain.work[..n].fill(1);
        if analyse(&chain).number == 0 {
            return chain;
        }
    }
}
