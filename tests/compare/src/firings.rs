//! Chains, run states and nodes to compare manual firing on: sound states and damaged ones, on both
//! sides of every limit; and histories of thousands of firings.

use crate::analysed;
use crate::records::littered;
use crate::simulated::Simulated;
use compare::chains::{any_word, within};
use compare::loaded::accepted;
use compare::random::Random;
use compare::small::{make_room, peaked};
use compare::states::{dress, nearly_planned, planned, Plan};
use yardstick::{Chain, Queue, Run, CAPACITY, MAX_QUEUES, TOKENS};

/// The firings of each kind at each node and each queue, for every n.
const REPEATS: usize = 6;

/// How often a state is looked for in which a node's count is the last.
const TRIES: usize = 16;

/// The firings of a history from a fresh start, from counts near the last and from a damaged state.
const STEPS: usize = 3_000;
const LAST_STEPS: usize = 600;
const DAMAGED_STEPS: usize = 40;

/// How far the counts of a history's state are from the last.
const NEAR_LAST: u32 = 40;

/// A chain, a run state and the node that is fired.
pub struct Firing {
    pub chain: Chain,
    pub run: Run,
    pub node: u32,
}

/// A chain, a run state and the nodes that are fired one after the other.
pub struct History {
    pub chain: Chain,
    pub run: Run,
    pub nodes: Vec<u32>,
}

/// How the state of a queue is damaged.
#[derive(Clone, Copy)]
pub enum Damage {
    /// The balance is off.
    Off,
    /// The balance is off by a multiple of 2^32.
    OffByWords,
    /// More is held than the capacity.
    Over,
    /// A negative balance is held as a word.
    Negative,
    /// The work done is the execution time or more.
    Late,
}

/// All damages.
pub const DAMAGES: [Damage; 5] = [
    Damage::Off,
    Damage::OffByWords,
    Damage::Over,
    Damage::Negative,
    Damage::Late,
];

/// A random firing on a chain of n queues.
pub fn any(random: &mut Random, n: usize) -> Firing {
    let node = random.below(n + 1);
    match random.below(16) {
        0 => unrelated(random, n),
        1..=3 => last(random, n, node),
        4..=8 => {
            let damages = any_damages(random, n);
            damaged(random, n, &damages)
        }
        _ => sound(random, n, node),
    }
}

/// Firings of every kind at every node and with every damage at every queue, for every n.
pub fn limits(random: &mut Random) -> Vec<Firing> {
    let mut firings = Vec::new();
    for n in 1..=MAX_QUEUES {
        for _ in 0..REPEATS {
            for node in 0..=n {
                firings.push(sound(random, n, node));
                firings.push(last(random, n, node));
            }
            for queue in 0..n {
                for damage in DAMAGES {
                    firings.push(damaged(random, n, &[(queue, damage)]));
                }
            }
        }
    }
    firings
}

/// Any chain of n queues and a state that has nothing to do with it.
fn unrelated(random: &mut Random, n: usize) -> Firing {
    let chain = analysed::any(random, n);
    let mut run = Run::default();
    if random.below(4) > 0 {
        run.clock = any_word(random);
        run.counts.fill_with(|| any_word(random));
        run.held.fill_with(|| any_word(random));
        run.done.fill_with(|| any_word(random));
    }
    let node = random.below(n + 1);
    let node = any_node(random, n, node);
    Firing { chain, run, node }
}

/// A firing of a node from a sound state, more often accepted than not.
fn sound(random: &mut Random, n: usize, node: usize) -> Firing {
    let chain = accepted(random, n);
    let plan = Plan::sound(&chain, node, any_count(random));
    let steered = steered(random, &chain, plan.clone());
    let run = nearly_planned(random, &chain, &steered)
        .or_else(|| nearly_planned(random, &chain, &plan))
        .unwrap_or_default();
    dressed(random, chain, run, node)
}

/// A firing of a node whose count is the last, or the one before, where such a state is found.
fn last(random: &mut Random, n: usize, node: usize) -> Firing {
    let chain = peaked(random, n, node);
    let run = last_state(random, &chain, node).unwrap_or_default();
    dressed(random, chain, run, node)
}

/// A sound state in which a node's count is the last or the one before, where there is one. A node
/// that is fed as often as it fires has a count that is not above its producer's.
pub fn last_state(random: &mut Random, chain: &Chain, node: usize) -> Option<Run> {
    (0..TRIES).find_map(|_| {
        let count = u32::MAX - random.pick(&[0, 0, 0, 1]);
        let plan = Plan::sound(chain, node, count);
        let mut plan = steered(random, chain, plan);
        for (held, queue) in plan.held.iter_mut().zip(&chain.queues).take(node) {
            if queue.produce == queue.consume {
                *held = 0..=0;
            }
        }
        planned(random, chain, &plan)
    })
}

/// A plan in which the queues around its node often hold what lets it fire, and else less than the
/// threshold or too much for its production.
fn steered(random: &mut Random, chain: &Chain, mut plan: Plan) -> Plan {
    let node = plan.node;
    if node > 0 {
        let (threshold, capacity) = (chain.queues[node - 1].threshold, *plan.held[node - 1].end());
        plan.held[node - 1] = match random.below(5) {
            0 => 0..=(threshold - 1).min(capacity),
            _ => threshold..=capacity,
        };
    }
    if node < chain.n as usize {
        let capacity = *plan.held[node].end();
        let free = capacity.saturating_sub(chain.queues[node].produce);
        plan.held[node] = match random.below(5) {
            0 => free + 1..=capacity,
            _ => 0..=free,
        };
    }
    plan
}

/// One to three damages anywhere in a state of n queues, in most cases one.
pub fn any_damages(random: &mut Random, n: usize) -> Vec<(usize, Damage)> {
    let count = random.pick(&[1, 1, 1, 1, 2, 3]);
    let damage = |_| (random.below(n), random.pick(&DAMAGES));
    (0..count).map(damage).collect()
}

/// A firing from a state with damages.
fn damaged(random: &mut Random, n: usize, damages: &[(usize, Damage)]) -> Firing {
    let (first, _) = damages[0];
    let chain = if random.below(2) == 0 {
        accepted(random, n)
    } else {
        peaked(random, n, first)
    };
    let run = damaged_state(random, &chain, damages);
    let node = random.below(n + 1);
    let node = any_node(random, n, node);
    Firing {
        chain: littered(random, chain),
        run,
        node,
    }
}

/// A state of an accepted chain with damages, where such a state is found, and else one that has
/// nothing but work done too long; with any clock, work done and litter past n.
pub fn damaged_state(random: &mut Random, chain: &Chain, damages: &[(usize, Damage)]) -> Run {
    let (first, _) = damages[0];
    let plan = Plan::sound(chain, first, any_count(random));
    damaged_plan(random, chain, plan, damages)
}

/// The same by a plan.
pub fn damaged_plan(
    random: &mut Random,
    chain: &Chain,
    mut plan: Plan,
    damages: &[(usize, Damage)],
) -> Run {
    for &(queue, damage) in damages {
        damage_plan(random, chain, &mut plan, queue, damage);
    }
    let state = nearly_planned(random, chain, &plan);
    let late = |damage| state.is_none() || matches!(damage, Damage::Late);
    let mut run = state.unwrap_or_default();
    dress(random, chain, &mut run);
    for &(queue, damage) in damages {
        if late(damage) {
            let work = chain.work[queue];
            run.done[queue] = random.pick(&[work, work, work + 1, u32::MAX]);
        }
    }
    run
}

/// Damages a queue in a plan, which has nothing to say about work.
fn damage_plan(random: &mut Random, chain: &Chain, plan: &mut Plan, queue: usize, damage: Damage) {
    let capacity = *plan.held[queue].end();
    match damage {
        Damage::Off => plan.off[queue] += any_off(random, &chain.queues[queue]),
        Damage::OffByWords => plan.off[queue] += any_words_off(random),
        Damage::Over => {
            plan.held[queue] = capacity + 1..=capacity + random.pick(&[1, 8, 140_000]);
        }
        Damage::Negative => {
            plan.off[queue] += 1 << 32;
            plan.held[queue] = u32::MAX - 140_000..=u32::MAX;
        }
        Damage::Late => {}
    }
}

/// What a balance is off by: one more or less, what a firing moves, a power of two, or any.
fn any_off(random: &mut Random, queue: &Queue) -> i64 {
    let off = match random.below(8) {
        0..=3 => 1,
        4 => i64::from(queue.produce),
        5 => i64::from(queue.consume),
        6 => 1 << random.below(40),
        _ => 1 + i64::from(random.word() >> random.below(32)),
    };
    off * random.pick(&[1, -1])
}

/// A multiple of 2^32, small more often than not.
fn any_words_off(random: &mut Random) -> i64 {
    let times = match random.below(4) {
        0 => 1 + random.below(65_535),
        1 => 1 + random.below(16),
        _ => 1,
    };
    ((times as i64) << 32) * random.pick(&[1, -1])
}

/// A count: small, any, or near the last.
pub fn any_count(random: &mut Random) -> u32 {
    match random.below(4) {
        0 => random.below(64) as u32,
        1 => u32::MAX - random.below(64) as u32,
        _ => random.word() >> random.below(32),
    }
}

/// A firing from a state with any clock, work done and litter past n in chain and state, with limits
/// moved to it in two of three cases.
fn dressed(random: &mut Random, chain: Chain, mut run: Run, node: usize) -> Firing {
    dress(random, &chain, &mut run);
    let mut firing = Firing {
        run,
        node: any_node(random, chain.n as usize, node),
        chain: littered(random, chain),
    };
    if random.below(3) > 0 {
        move_limits(random, &mut firing, node);
    }
    firing
}

/// Moves the threshold before a node to what is held there or one above, the capacity behind it to
/// what a firing fills or one below, and that of any queue to what is held or one below, where
/// these are in range.
fn move_limits(random: &mut Random, firing: &mut Firing, node: usize) {
    let (chain, held) = (&mut firing.chain, &firing.run.held);
    let n = chain.n as usize;
    if node > 0 && random.below(2) == 0 {
        let queue = &mut chain.queues[node - 1];
        let threshold = held[node - 1].saturating_add(random.pick(&[0, 1]));
        if (queue.consume..=*TOKENS.end()).contains(&threshold) {
            queue.threshold = threshold;
        }
    }
    if node < n && random.below(2) == 0 {
        let full = held[node].saturating_add(chain.queues[node].produce);
        put_capacity(&mut chain.queues[node], full - random.pick(&[0, 1]));
    }
    if random.below(4) == 0 {
        let any = random.below(n);
        let less = random.pick(&[0, 1]);
        put_capacity(&mut chain.queues[any], held[any].saturating_sub(less));
    }
}

/// Gives a queue a capacity that is not 0, if it is in range.
fn put_capacity(queue: &mut Queue, capacity: u32) {
    if capacity > 0 && CAPACITY.contains(&capacity) {
        queue.capacity = capacity;
    }
}

/// A node, or in one of eight cases one that a chain of n queues does not have.
pub fn any_node(random: &mut Random, n: usize, node: usize) -> u32 {
    let (n, node) = (n as u32, node as u32);
    let none = [
        n + 1,
        MAX_QUEUES as u32,
        MAX_QUEUES as u32 + 1,
        node + (1 << 8),
        node + (1 << 16),
        node + (1 << 31),
        u32::MAX - n,
        u32::MAX,
        random.word(),
    ];
    match random.below(8) {
        0 => random.pick(&none).max(n + 1),
        _ => node,
    }
}

/// Histories on one chain of n queues, which in most cases has room for any number of firings: from
/// a fresh start, from counts near the last where there is such a state, and from a damaged state.
pub fn walk(random: &mut Random, n: usize) -> Vec<History> {
    let node = random.below(n + 1);
    let mut chain = peaked(random, n, node);
    if random.below(4) > 0 {
        make_room(random, &mut chain);
    }
    let mut fresh = Run::default();
    dress(random, &chain, &mut fresh);
    let mut starts = vec![(fresh, STEPS)];
    let near = (0..TRIES).find_map(|_| near_last(random, &chain, node));
    if let Some(mut near) = near {
        dress(random, &chain, &mut near);
        starts.push((near, LAST_STEPS));
    }
    let mut damaged = fresh;
    damaged.held[random.below(n)] += 1;
    starts.push((damaged, DAMAGED_STEPS));
    let chain = littered(random, chain);
    let history = |(run, steps)| History {
        chain,
        run,
        nodes: steps_from(random, &chain, &run, steps),
    };
    starts.into_iter().map(history).collect()
}

/// A sound state in which a node's count is near the last, where there is one.
fn near_last(random: &mut Random, chain: &Chain, node: usize) -> Option<Run> {
    let count = u32::MAX - within(random, 1..=NEAR_LAST);
    let mut plan = Plan::sound(chain, node, count);
    for (held, queue) in plan.held.iter_mut().zip(&chain.queues).take(node) {
        *held = 0..=(*held.end()).min(queue.produce);
    }
    planned(random, chain, &plan)
}

/// So many nodes to fire one after the other from a state, more often permitted than not.
fn steps_from(random: &mut Random, chain: &Chain, run: &Run, steps: usize) -> Vec<u32> {
    let mut line = Simulated::new(chain, run);
    let n = chain.n as usize;
    let mut nodes = Vec::with_capacity(steps);
    for _ in 0..steps {
        let any = random.below(n + 1);
        let node = match random.below(8) {
            0 => any_node(random, n, any),
            1 => any as u32,
            _ => line.permitted(random).unwrap_or(any) as u32,
        };
        let at = node as usize;
        if at <= n && line.permits(at) && line.counts[at] < u64::from(u32::MAX) {
            line.fire(at);
        }
        nodes.push(node);
    }
    nodes
}
