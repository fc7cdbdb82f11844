//! Random run states of a chain: what a node has fired and what each queue holds is chosen, and by
//! how much its balance is off.

use crate::chains::{any_word, within};
use crate::random::Random;
use std::ops::RangeInclusive;
use yardstick::{analyse, Chain, Queue, Run, MAX_QUEUES};

/// How often a count is tried that turns out to be too large.
const TRIES: usize = 12;

/// What a run state is to be like.
#[derive(Clone)]
pub struct Plan {
    /// A node and how often it has fired.
    pub node: usize,
    pub count: u32,
    /// The least and the most that each queue holds.
    pub held: [RangeInclusive<u32>; MAX_QUEUES],
    /// What each queue's balance is off by: what was put in and this number together are what is
    /// held and what was taken out.
    pub off: [i64; MAX_QUEUES],
}

impl Plan {
    /// The plan of a state of an accepted chain that passes check 17, in which a node has fired so
    /// often.
    pub fn sound(chain: &Chain, node: usize, count: u32) -> Self {
        let sizes = analyse(chain).analysis.queues;
        Plan {
            node,
            count,
            held: sizes.map(|size| 0..=size.capacity),
            off: [0; MAX_QUEUES],
        }
    }
}

/// A random run state of an accepted chain by a plan, with no work done, clock 0 and zeros past n;
/// nothing if there is none. The counts on both sides of the plan's node follow from what is held.
pub fn planned(random: &mut Random, chain: &Chain, plan: &Plan) -> Option<Run> {
    let mut run = Run::default();
    run.counts[plan.node] = plan.count;
    for i in plan.node..chain.n as usize {
        let Queue {
            produce, consume, ..
        } = chain.queues[i];
        let put = i64::from(produce) * i64::from(run.counts[i]) + plan.off[i];
        let held = held(random, &plan.held[i], put, consume)?;
        run.held[i] = held;
        run.counts[i + 1] = quotient(put - i64::from(held), consume)?;
    }
    for i in (0..plan.node).rev() {
        let Queue {
            produce, consume, ..
        } = chain.queues[i];
        let taken = i64::from(consume) * i64::from(run.counts[i + 1]) - plan.off[i];
        let held = held(random, &plan.held[i], -taken, produce)?;
        run.held[i] = held;
        run.counts[i] = quotient(taken + i64::from(held), produce)?;
    }
    Some(run)
}

/// As `planned`, where the count may be made smaller until there is such a state.
pub fn nearly_planned(random: &mut Random, chain: &Chain, plan: &Plan) -> Option<Run> {
    let mut plan = plan.clone();
    for _ in 0..TRIES {
        let state = planned(random, chain, &plan);
        if state.is_some() {
            return state;
        }
        plan.count >>= random.below(6);
    }
    None
}

/// A number of a range that leaves the same rest as another when divided, the first and the last of
/// them more often than the others; none if there is none.
fn held(random: &mut Random, range: &RangeInclusive<u32>, like: i64, divisor: u32) -> Option<u32> {
    let (low, high) = (i64::from(*range.start()), i64::from(*range.end()));
    let step = i64::from(divisor);
    let first = low + (like - low).rem_euclid(step);
    let more = u32::try_from((high - first).div_euclid(step)).ok()?;
    let held = first + step * i64::from(within(random, 0..=more));
    Some(held as u32)
}

/// The quotient of a division without rest, if it is a word.
fn quotient(number: i64, divisor: u32) -> Option<u32> {
    u32::try_from(number / i64::from(divisor))
        .ok()
        .filter(|_| number >= 0)
}

/// Gives a state of a valid chain random work done, the most that is sound more often than the
/// rest, and any clock, and litters its slots past n.
pub fn dress(random: &mut Random, chain: &Chain, run: &mut Run) {
    let n = chain.n as usize;
    run.clock = any_word(random);
    for (done, work) in run.done.iter_mut().zip(chain.work).take(n) {
        *done = within(random, 0..=work - 1);
    }
    let past = run.counts[n + 1..].iter_mut();
    let past = past.chain(&mut run.held[n..]).chain(&mut run.done[n..]);
    past.for_each(|slot| *slot = any_word(random));
}
