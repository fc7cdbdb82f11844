//! Chains, run states and lists of losses to compare one recording tick on: states of recording
//! runs, planned ones and damaged ones, on both sides of every limit; and states and lists from
//! which tick follows tick.

use crate::analysed;
use crate::firings::{any_damages, damaged_plan, Damage, DAMAGES};
use crate::lists::{any_length, damage_list, list, plan_with, ListDamage, LIST_DAMAGES};
use crate::records::littered;
use crate::runs::{littered_if_valid, tighten};
use crate::ticks::{
    any_clock, any_held, below_threshold, over_threshold, quick_peaked, wait, without_room,
};
use compare::chains::{any_word, within};
use compare::loaded::accepted;
use compare::random::Random;
use compare::rates::capacity;
use compare::states::{dress, nearly_planned, planned, Plan};
use compare::timed::brisk;
use std::ops::RangeInclusive;
use yardstick::{
    recording_run, Chain, Losses, Queue, Run, CAPACITY, MAX_LOSSES, MAX_QUEUES, MAX_TICKS, TOKENS,
};

/// The ticks of each kind at each node and each queue, for every n.
const REPEATS: usize = 4;

/// How often a state by a steered plan is looked for.
const TRIES: usize = 16;

/// The most ticks after which the state of a run is taken.
const FEW: usize = 2_000;

/// The ticks that follow each other.
const STEPS: u64 = 60;

/// How often a node has fired in a state in which queues have lost something.
const OFTEN: RangeInclusive<u32> = 10_000_000..=1_000_000_000;

/// How many slots a list has left at the limits.
const LEFT: [usize; 4] = [0, 1, 2, 3];

/// A chain, and the state and the list that are handed to a recording tick.
#[derive(Clone)]
pub struct RecordingTick {
    pub chain: Chain,
    pub run: Run,
    pub losses: Losses,
}

/// Where recording ticks that follow each other begin, and how many they are.
pub struct RecordingWalk {
    pub start: RecordingTick,
    pub ticks: u64,
}

/// A random recording tick of a chain of n queues.
pub fn any(random: &mut Random, n: usize) -> RecordingTick {
    let node = 1 + random.below(n);
    let length = any_length(random);
    match random.below(32) {
        0 => unrelated(random, n),
        1 | 2 => {
            let node = random.pick(&[node, node - 1]);
            last(random, n, node, length)
        }
        3..=5 => {
            let damages = any_damages(random, n);
            damaged(random, n, &damages, length)
        }
        6 | 7 => {
            let damage = random.pick(&LIST_DAMAGES);
            with_damaged_list(random, n, damage)
        }
        8..=11 => lacking(random, n, node, length),
        12..=17 => losing(random, n, node, length),
        18..=23 => reached(random, n),
        24 => wide(random, n, node - 1),
        25 => unaccounted(random, n),
        _ => sound(random, n, length),
    }
}

/// Ticks of every kind at every node, with every damage at every queue and of the list, and with
/// every number of slots left, for every n.
pub fn limits(random: &mut Random) -> Vec<RecordingTick> {
    let mut ticks = Vec::new();
    for n in 1..=MAX_QUEUES {
        for _ in 0..REPEATS {
            for node in 1..=n {
                let lengths = LEFT.map(|left| MAX_LOSSES - left);
                ticks.extend(lengths.map(|length| losing(random, n, node, length)));
                ticks.extend(lengths.map(|length| lacking(random, n, node, length)));
            }
            for queue in 0..n {
                let length = any_length(random);
                ticks.extend(DAMAGES.map(|damage| damaged(random, n, &[(queue, damage)], length)));
                ticks.push(wide(random, n, queue));
            }
            let length = any_length(random);
            ticks.extend((0..=n).map(|node| last(random, n, node, length)));
            ticks.extend(LIST_DAMAGES.map(|damage| with_damaged_list(random, n, damage)));
            ticks.push(unaccounted(random, n));
        }
    }
    ticks
}

/// Starts of recording ticks that follow each other on chains of n queues: a fresh start, the state
/// of a run, a planned one with a list that is soon full, a clock near the last, a node without a
/// deadline, and a damaged list.
pub fn walks(random: &mut Random, n: usize) -> Vec<RecordingWalk> {
    let node = 1 + random.below(n);
    let nearly = MAX_LOSSES - random.below(8);
    let fresh = RecordingTick {
        chain: lossy(random, n),
        run: Run::default(),
        losses: list(random, n, 0),
    };
    let mut late = sound(random, n, nearly);
    late.run.clock = MAX_TICKS - within(random, 1..=STEPS as u32);
    let damage = random.pick(&LIST_DAMAGES);
    let starts = [
        fresh,
        reached(random, n),
        sound(random, n, nearly),
        losing(random, n, node, nearly),
        late,
        lacking(random, n, node, nearly),
        with_damaged_list(random, n, damage),
    ];
    let walk = |start| RecordingWalk {
        start,
        ticks: STEPS,
    };
    starts.map(walk).into()
}

/// A brisk chain of n queues, each of which has too little room in one of three cases.
pub fn lossy(random: &mut Random, n: usize) -> Chain {
    let mut chain = brisk(random, n);
    tighten_some(random, &mut chain.queues[..n]);
    chain
}

/// Gives each of some valid queues too little room in one of three cases.
pub fn tighten_some(random: &mut Random, queues: &mut [Queue]) {
    for queue in queues {
        if random.below(3) == 0 {
            tighten(random, queue);
        }
    }
}

/// Any chain of n queues, and a state and a list that have nothing to do with it.
fn unrelated(random: &mut Random, n: usize) -> RecordingTick {
    let chain = analysed::any(random, n);
    let mut run = Run::default();
    let mut losses = Losses::default();
    if random.below(4) > 0 {
        run.clock = any_word(random);
        run.counts.fill_with(|| any_word(random));
        run.held.fill_with(|| any_word(random));
        run.done.fill_with(|| any_word(random));
        losses = list(random, MAX_QUEUES, 0);
        losses.count = any_word(random);
    }
    RecordingTick {
        chain: littered_if_valid(random, chain),
        run,
        losses,
    }
}

/// A tick in which a node's count is the last, or the one before, where such a state is found. No
/// queue before it has lost anything, and one that has as many tokens put in as taken out is empty,
/// so that no count is above.
fn last(random: &mut Random, n: usize, node: usize, length: usize) -> RecordingTick {
    let mut chain = lone_peak(random, n, node);
    tighten_some(random, &mut chain.queues[node..n]);
    let mut losses = list(random, n, length);
    let (entries, _) = losses.entries.split_at_mut(length);
    for entry in entries.iter_mut().filter(|entry| entry.queue < node as u32) {
        entry.tokens = 0;
    }
    let count = u32::MAX - random.pick(&[0, 0, 0, 1]);
    let mut plan = plan_with(&chain, node, count, &losses);
    for (held, queue) in plan.held.iter_mut().zip(&chain.queues).take(node) {
        if queue.produce == queue.consume {
            *held = 0..=0;
        }
    }
    steered(random, chain, losses, |_| plan.clone())
}

/// A chain of n queues in which a node fires more often than those before it.
fn lone_peak(random: &mut Random, n: usize, node: usize) -> Chain {
    loop {
        let chain = quick_peaked(random, n, node);
        let before = node.checked_sub(1).map(|i| chain.queues[i]);
        if before.is_none_or(|queue| queue.produce > queue.consume) {
            return chain;
        }
    }
}

/// A tick from a state with damages, beside a sound list.
fn damaged(
    random: &mut Random,
    n: usize,
    damages: &[(usize, Damage)],
    length: usize,
) -> RecordingTick {
    let (first, _) = damages[0];
    let chain = any_chain(random, n, first);
    let losses = list(random, n, length);
    let count = match random.below(4) {
        0 => u32::MAX,
        _ => within(random, OFTEN),
    };
    let plan = plan_with(&chain, first, count, &losses);
    let mut run = damaged_plan(random, &chain, plan, damages);
    run.clock = any_clock(random, &chain);
    RecordingTick {
        chain: littered(random, chain),
        run,
        losses,
    }
}

/// A tick with a damaged list, whose queues are sound but for the entry that was changed.
fn with_damaged_list(random: &mut Random, n: usize, damage: ListDamage) -> RecordingTick {
    let length = any_length(random);
    let mut tick = match random.below(4) {
        0 => damaged(random, n, &[(0, Damage::Late)], length),
        _ => sound(random, n, length),
    };
    damage_list(random, n, &mut tick.losses, damage);
    tick
}

/// A tick from a state that has lost nothing beside a list with an entry.
fn unaccounted(random: &mut Random, n: usize) -> RecordingTick {
    let mut tick = sound(random, n, 0);
    tick.losses.count = 1;
    tick.losses.entries[0].queue = random.below(n) as u32;
    tick
}

/// A tick in the middle of a recording run.
fn reached(random: &mut Random, n: usize) -> RecordingTick {
    let chain = lossy(random, n);
    let reached = recording_run(&chain, random.below(FEW) as u32);
    let mut run = reached.run;
    dress(random, &chain, &mut run);
    run.clock = reached.run.clock;
    run.done[..n].copy_from_slice(&reached.run.done[..n]);
    let mut losses = list(random, n, 0);
    let count = reached.losses.count as usize;
    losses.count = reached.losses.count;
    losses.entries[..count].copy_from_slice(&reached.losses.entries[..count]);
    RecordingTick {
        chain: littered(random, chain),
        run,
        losses,
    }
}

/// A tick from a planned state, some of whose queues hold a lot and some little.
fn sound(random: &mut Random, n: usize, length: usize) -> RecordingTick {
    let node = random.below(n + 1);
    let chain = any_chain(random, n, node);
    let losses = list(random, n, length);
    let plan = plan_with(&chain, node, within(random, OFTEN), &losses);
    steered(random, chain, losses, |random| {
        let mut plan = plan.clone();
        for i in 0..n {
            plan.held[i] = any_held(random, &chain.queues[i]);
        }
        plan
    })
}

/// A tick in which the deadline of a node, not the source, can't be had, where such a state is
/// found: the source has fired nearly as often as can be. In half of the cases its queue has no room
/// for a production.
fn lacking(random: &mut Random, n: usize, node: usize, length: usize) -> RecordingTick {
    let chain = quick_peaked(random, n, 0);
    let losses = list(random, n, length);
    let count = u32::MAX - within(random, 1..=6);
    let loses = random.below(2) == 0;
    let plan = plan_with(&chain, 0, count, &losses);
    let mut tick = steered(random, chain, losses, |random| {
        let mut plan = plan.clone();
        wait(random, &chain, node, &mut plan);
        if loses {
            fill_first(&chain, node, &mut plan);
        }
        plan
    });
    at_source(random, &mut tick);
    tick
}

/// A tick in which a node, not the source, finishes a firing and no queue has room, neither that of
/// the source nor that behind the node, where such a state is found; the source fires in most cases.
fn losing(random: &mut Random, n: usize, node: usize, length: usize) -> RecordingTick {
    let mut chain = quick_peaked(random, n, 0);
    for (i, queue) in chain.queues[..n].iter_mut().enumerate() {
        queue.capacity = random.pick(&[0, 0, capacity(queue)]);
        if i != node - 1 && random.below(2) == 0 {
            tighten(random, queue);
        }
    }
    let losses = list(random, n, length);
    let plan = plan_with(&chain, 0, within(random, OFTEN), &losses);
    let roomy = random.below(8) == 0;
    let mut tick = steered(random, chain, losses, |_| {
        let mut plan = plan.clone();
        for (held, queue) in plan.held[..n].iter_mut().zip(&chain.queues) {
            *held = below_threshold(queue);
        }
        plan.held[node - 1] = over_threshold(&chain.queues[node - 1]);
        if !roomy {
            fill_first(&chain, node, &mut plan);
        }
        if node < n {
            plan.held[node] = without_room(&chain.queues[node]);
        }
        plan
    });
    tick.run.done[node - 1] = tick.chain.work[node - 1] - 1;
    at_source(random, &mut tick);
    tick
}

/// Leaves the source's queue no room for a production in a plan in which a node waits.
fn fill_first(chain: &Chain, node: usize, plan: &mut Plan) {
    let (low, high) = without_room(&chain.queues[0]).into_inner();
    plan.held[0] = match node {
        1 => low.max(chain.queues[0].threshold)..=high,
        _ => low..=high,
    };
}

/// Sets the clock to an instant within the limit, in three of four cases one at which the source
/// fires.
fn at_source(random: &mut Random, tick: &mut RecordingTick) {
    let period = tick.chain.period;
    let times = within(random, 0..=(MAX_TICKS - 1) / period);
    let past = random.pick(&[0, 0, 0, 1]) % period;
    tick.run.clock = (period * times + past).min(MAX_TICKS - 1);
}

/// A tick with a full list of entries with as many tokens as can be, all of one queue or of any: its
/// balance is sound, or off by a little, or by a multiple of 2^32.
fn wide(random: &mut Random, n: usize, queue: usize) -> RecordingTick {
    let chain = wide_chain(random, n);
    let mut losses = list(random, n, MAX_LOSSES);
    let alone = random.below(2) == 0;
    for entry in &mut losses.entries {
        entry.tokens = u32::MAX;
        if alone {
            entry.queue = queue as u32;
        }
    }
    let mut plan = plan_with(&chain, 0, u32::MAX - within(random, 1..=1_000), &losses);
    plan.off[queue] += match random.below(3) {
        0 => 0,
        1 => random.pick(&[1, -1]),
        _ => random.pick(&[1, -1]) << 32,
    };
    steered(random, chain, losses, |_| plan.clone())
}

/// An accepted chain of n queues through which the most tokens go.
fn wide_chain(random: &mut Random, n: usize) -> Chain {
    let mut chain = Chain {
        n: n as u32,
        period: *CAPACITY.end(),
        ..Chain::default()
    };
    for queue in &mut chain.queues[..n] {
        let both = TOKENS.end() - random.below(1_000) as u32;
        *queue = Queue {
            produce: both,
            threshold: both,
            consume: both,
            capacity: random.pick(&[0, 0, *CAPACITY.end()]),
            reserved: 0,
        };
    }
    chain.work[..n].fill_with(|| within(random, 1..=9));
    chain
}

/// An accepted chain of n queues with any capacities; in one of four cases no node fires more often
/// than a given one.
fn any_chain(random: &mut Random, n: usize, node: usize) -> Chain {
    let mut chain = match random.below(4) {
        0 => return accepted(random, n),
        1 => quick_peaked(random, n, node),
        _ => brisk(random, n),
    };
    tighten_some(random, &mut chain.queues[..n]);
    chain
}

/// A tick from a state by a plan of some that are made, where such a state is found, and else from
/// one by the plan of a sound state, or from a fresh start with an empty list; with any clock, work
/// done and litter past n in chain and state.
fn steered(
    random: &mut Random,
    chain: Chain,
    mut losses: Losses,
    plan: impl Fn(&mut Random) -> Plan,
) -> RecordingTick {
    let found = (0..TRIES).find_map(|_| {
        let plan = plan(random);
        planned(random, &chain, &plan)
    });
    let sound = plan_with(&chain, 0, *OFTEN.end(), &losses);
    let found = found.or_else(|| nearly_planned(random, &chain, &sound));
    let mut run = found.unwrap_or_else(|| {
        losses.count = 0;
        Run::default()
    });
    dress(random, &chain, &mut run);
    run.clock = any_clock(random, &chain);
    RecordingTick {
        chain: littered(random, chain),
        run,
        losses,
    }
}
