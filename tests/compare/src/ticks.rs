//! Chains and run states to compare one tick on: states of runs, planned ones and damaged ones, on
//! both sides of every limit; and states from which tick follows tick.

use crate::analysed;
use crate::firings::{any_count, any_damages, damaged_state, last_state, Damage, DAMAGES};
use crate::records::littered;
use crate::runs::{littered_if_valid, tighten};
use compare::chains::{any_word, within};
use compare::loaded::accepted;
use compare::random::Random;
use compare::rates::capacity;
use compare::small::{make_room, peaked};
use compare::states::{dress, nearly_planned, planned, Plan};
use compare::timed::brisk;
use std::ops::RangeInclusive;
use yardstick::{analyse, deadline_run, Chain, Queue, Run, MAX_QUEUES, MAX_TICKS};

/// The ticks of each kind at each node and each queue, for every n.
const REPEATS: usize = 6;

/// How often a state by a steered plan is looked for.
const TRIES: usize = 16;

/// The most ticks after which the state of a run is taken.
const FEW: usize = 400;

/// The ticks that follow each other.
const STEPS: u64 = 80;

/// A chain and the state that is handed to a tick.
pub struct Tick {
    pub chain: Chain,
    pub run: Run,
}

/// A chain, a state, and how many ticks follow each other from it.
pub struct Walk {
    pub chain: Chain,
    pub run: Run,
    pub ticks: u64,
}

/// A random tick of a chain of n queues.
pub fn any(random: &mut Random, n: usize) -> Tick {
    let node = 1 + random.below(n);
    match random.below(32) {
        0 => unrelated(random, n),
        1 | 2 => tight(random, n, node - 1),
        3..=5 => {
            let node = random.pick(&[node, node - 1]);
            last(random, n, node)
        }
        6..=10 => {
            let damages = any_damages(random, n);
            damaged(random, n, &damages)
        }
        11..=14 => lacking(random, n, node),
        15 | 16 => first(random, n, node),
        17..=22 => reached(random, n),
        _ => sound(random, n),
    }
}

/// Ticks of every kind at every node and with every damage at every queue, for every n.
pub fn limits(random: &mut Random) -> Vec<Tick> {
    let mut ticks = Vec::new();
    for n in 1..=MAX_QUEUES {
        for _ in 0..REPEATS {
            ticks.extend((0..=n).map(|node| last(random, n, node)));
            ticks.extend((1..=n).map(|node| lacking(random, n, node)));
            ticks.extend((1..=n).map(|node| first(random, n, node)));
            for queue in 0..n {
                ticks.push(tight(random, n, queue));
                ticks.extend(DAMAGES.map(|damage| damaged(random, n, &[(queue, damage)])));
            }
            ticks.push(sound(random, n));
        }
    }
    ticks
}

/// Starts of ticks that follow each other on chains of n queues: a fresh start, the state of a run, a
/// planned one, clocks and counts near the last, a node without a deadline and a damaged state.
pub fn walks(random: &mut Random, n: usize) -> Vec<Walk> {
    let node = 1 + random.below(n);
    let fresh = Tick {
        chain: brisk(random, n),
        run: Run::default(),
    };
    let mut late = sound(random, n);
    late.run.clock = MAX_TICKS - within(random, 1..=STEPS as u32);
    let near = near_last(random, n, node - 1);
    let damages = any_damages(random, n);
    let starts = [
        fresh,
        reached(random, n),
        sound(random, n),
        late,
        near,
        lacking(random, n, node),
        damaged(random, n, &damages),
    ];
    let walk = |Tick { chain, run }| Walk {
        chain,
        run,
        ticks: STEPS,
    };
    starts.map(walk).into()
}

/// Any chain of n queues and a state that has nothing to do with it.
fn unrelated(random: &mut Random, n: usize) -> Tick {
    let chain = analysed::any(random, n);
    let mut run = Run::default();
    if random.below(4) > 0 {
        run.clock = any_word(random);
        run.counts.fill_with(|| any_word(random));
        run.held.fill_with(|| any_word(random));
        run.done.fill_with(|| any_word(random));
    }
    Tick {
        chain: littered_if_valid(random, chain),
        run,
    }
}

/// A tick of a chain one of whose capacities is below the minimum.
fn tight(random: &mut Random, n: usize, queue: usize) -> Tick {
    let mut tick = if random.below(2) == 0 {
        sound(random, n)
    } else {
        let damages = any_damages(random, n);
        damaged(random, n, &damages)
    };
    tighten(random, &mut tick.chain.queues[queue]);
    tick
}

/// A tick in which a node's count is the last, or the one before, where such a state is found.
fn last(random: &mut Random, n: usize, node: usize) -> Tick {
    let chain = quick_peaked(random, n, node);
    let run = last_state(random, &chain, node).unwrap_or_default();
    dressed(random, chain, run)
}

/// A tick from a state with damages.
fn damaged(random: &mut Random, n: usize, damages: &[(usize, Damage)]) -> Tick {
    let chain = roomy(random, n, damages[0].0);
    let mut run = damaged_state(random, &chain, damages);
    run.clock = any_clock(random, &chain);
    Tick {
        chain: littered(random, chain),
        run,
    }
}

/// A tick in the middle of a run.
fn reached(random: &mut Random, n: usize) -> Tick {
    let chain = brisk(random, n);
    let mut run = deadline_run(&chain, random.below(FEW) as u32).run;
    let reached = run;
    dress(random, &chain, &mut run);
    run.clock = reached.clock;
    run.done[..n].copy_from_slice(&reached.done[..n]);
    Tick {
        chain: littered(random, chain),
        run,
    }
}

/// A tick from a planned state, some of whose queues hold a lot and some little.
fn sound(random: &mut Random, n: usize) -> Tick {
    let node = random.below(n + 1);
    let chain = roomy(random, n, node);
    let plan = Plan::sound(&chain, node, any_count(random));
    let run = (0..TRIES)
        .find_map(|_| {
            let mut plan = plan.clone();
            for i in 0..n {
                plan.held[i] = any_held(random, &chain.queues[i]);
            }
            nearly_planned(random, &chain, &plan)
        })
        .or_else(|| nearly_planned(random, &chain, &plan))
        .unwrap_or_default();
    dressed(random, chain, run)
}

/// A tick in which the deadline of a node, not the source, can't be had, where such a state is found:
/// the source has fired nearly as often as can be.
fn lacking(random: &mut Random, n: usize, node: usize) -> Tick {
    let chain = quick_peaked(random, n, 0);
    let count = u32::MAX - within(random, 1..=6);
    waiting(random, chain, node, count)
}

/// A tick in which a node, not the source, is due first in most cases, where such a state is found: no
/// queue has more room than it needs, so that the node has a deadline.
fn first(random: &mut Random, n: usize, node: usize) -> Tick {
    let mut chain = quick_peaked(random, n, 0);
    for queue in &mut chain.queues[..n] {
        queue.capacity = 0;
    }
    let count = within(random, 1_000..=1_000_000);
    waiting(random, chain, node, count)
}

/// A tick in which a node, not the source, is over threshold and the source has fired so often, where
/// such a state is found.
fn waiting(random: &mut Random, chain: Chain, node: usize, count: u32) -> Tick {
    let run = (0..TRIES)
        .find_map(|_| waiting_state(random, &chain, node, count))
        .unwrap_or_default();
    dressed(random, chain, run)
}

/// A state in which the source has fired so often and a node waits; nothing if there is none by this
/// plan.
fn waiting_state(random: &mut Random, chain: &Chain, node: usize, count: u32) -> Option<Run> {
    let mut plan = Plan::sound(chain, 0, count);
    wait(random, chain, node, &mut plan);
    planned(random, chain, &plan)
}

/// Lets a node be over threshold in a plan, or become so by the source's step, while those before it
/// are below in most cases.
pub fn wait(random: &mut Random, chain: &Chain, node: usize, plan: &mut Plan) {
    for (before, held) in plan.held[..node - 1].iter_mut().enumerate() {
        *held = match random.below(4) {
            0 => any_held(random, &chain.queues[before]),
            _ => below_threshold(&chain.queues[before]),
        };
    }
    if node > 1 && random.below(4) == 0 {
        plan.held[0] = without_room(&chain.queues[0]);
    }
    let queue = &chain.queues[node - 1];
    plan.held[node - 1] = match random.below(3) {
        0 if node == 1 => queue.threshold.saturating_sub(queue.produce)..=queue.threshold - 1,
        _ => over_threshold(queue),
    };
}

/// A tick in which a node's count is near the last, where such a state is found.
fn near_last(random: &mut Random, n: usize, node: usize) -> Tick {
    let chain = quick_peaked(random, n, node);
    let count = u32::MAX - within(random, 1..=4);
    let plan = Plan::sound(&chain, node, count);
    let run = (0..TRIES)
        .find_map(|_| planned(random, &chain, &plan))
        .unwrap_or_default();
    dressed(random, chain, run)
}

/// A chain of n queues, none of whose capacities is below its minimum; in one of four cases no node
/// fires more often than a given one.
fn roomy(random: &mut Random, n: usize, node: usize) -> Chain {
    let mut chain = match random.below(4) {
        0 => accepted(random, n),
        1 => return quick_peaked(random, n, node),
        _ => brisk(random, n),
    };
    make_room(random, &mut chain);
    chain
}

/// A chain of n queues in which no node fires more often than a given one, none of whose capacities
/// is below its minimum, and whose period is short if it may be.
pub fn quick_peaked(random: &mut Random, n: usize, node: usize) -> Chain {
    let mut chain = peaked(random, n, node);
    make_room(random, &mut chain);
    let period = within(random, 1..=8 * n as u32);
    let quick = Chain { period, ..chain };
    match analyse(&quick).number {
        0 => quick,
        _ => chain,
    }
}

/// What a queue may hold: anything, less than its threshold, more, or too much for a production.
pub fn any_held(random: &mut Random, queue: &Queue) -> RangeInclusive<u32> {
    match random.below(6) {
        0 => 0..=capacity(queue),
        1 | 2 => below_threshold(queue),
        3 => without_room(queue),
        _ => over_threshold(queue),
    }
}

/// What a queue holds that is below its threshold and not above its capacity.
pub fn below_threshold(queue: &Queue) -> RangeInclusive<u32> {
    0..=(queue.threshold - 1).min(capacity(queue))
}

/// What a queue holds that is not below its threshold; nothing if its capacity is.
pub fn over_threshold(queue: &Queue) -> RangeInclusive<u32> {
    queue.threshold..=capacity(queue)
}

/// What a queue holds that has no room for a production.
pub fn without_room(queue: &Queue) -> RangeInclusive<u32> {
    (capacity(queue) + 1).saturating_sub(queue.produce)..=capacity(queue)
}

/// A tick from a state with any clock, work done and litter past n in chain and state.
fn dressed(random: &mut Random, chain: Chain, mut run: Run) -> Tick {
    dress(random, &chain, &mut run);
    run.clock = any_clock(random, &chain);
    Tick {
        chain: littered(random, chain),
        run,
    }
}

/// A clock at which the source fires, or any, in most cases with ticks to come.
pub fn any_clock(random: &mut Random, chain: &Chain) -> u32 {
    match random.below(16) {
        0 => random.pick(&[MAX_TICKS, MAX_TICKS + 1, u32::MAX]),
        1 => random.pick(&[MAX_TICKS - 1, MAX_TICKS - 2]),
        2 => any_word(random),
        3..=9 => {
            let times = (MAX_TICKS - 1) / chain.period;
            chain.period * within(random, 0..=times)
        }
        _ => random.below(MAX_TICKS as usize) as u32,
    }
}
