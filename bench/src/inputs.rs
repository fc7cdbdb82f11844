//! The inputs of the measured calls: random ones from a fixed seed, so every run has the same.

use compare::chains::{valid, within};
use compare::loaded::accepted;
use compare::packed::packed_file;
use compare::random::Random;
use compare::small::make_room;
use compare::states::{nearly_planned, Plan};
use compare::timed::brisk;
use compare::MAX_REPORT_LENGTH;
use std::iter;
use yardstick::{Chain, Losses, Queue, Run, CLEAN, MAX_TICKS, TICKS};

/// The different inputs of a ring of calls that take less than microseconds.
pub const MANY: usize = 64;

/// The different inputs of a ring of calls that take milliseconds.
pub const FEW: usize = 2;

/// The losses of a long run that has some.
const LOST: u32 = 200;

/// Random valid chains of n queues.
pub fn chains(random: &mut Random, n: usize) -> Vec<Chain> {
    (0..MANY).map(|_| valid(random, n)).collect()
}

/// Random chains of n queues that the analysis accepts.
pub fn accepted_chains(random: &mut Random, n: usize) -> Vec<Chain> {
    (0..MANY).map(|_| accepted(random, n)).collect()
}

/// The chains with a consume above its threshold in the last row, and nowhere else.
pub fn refused_last(mut chains: Vec<Chain>) -> Vec<Chain> {
    for chain in &mut chains {
        let last = &mut chain.queues[chain.n as usize - 1];
        last.threshold = last.threshold.min(65_534);
        last.consume = last.threshold + 1;
    }
    chains
}

/// The packed files of chains, whether or not a chain is refused.
pub fn files(chains: &[Chain]) -> Vec<Vec<u8>> {
    chains.iter().map(packed_file).collect()
}

/// The files with a total word that is one too large.
pub fn refused_first(mut files: Vec<Vec<u8>>) -> Vec<Vec<u8>> {
    for file in &mut files {
        let total = file.len() as u32 + 1;
        file[16..20].copy_from_slice(&total.to_le_bytes());
    }
    files
}

/// The room in bytes for the report on a file and no more.
pub fn exact_room(file: &[u8]) -> usize {
    yardstick::report(file, &mut [0; MAX_REPORT_LENGTH]).length as usize
}

/// Random chains of n queues, states in the middle of a run, and nodes that may fire then.
pub fn firings(random: &mut Random, n: usize) -> Vec<(Chain, Run, u32)> {
    some(MANY, || {
        let chain = accepted(random, n);
        let node = random.below(n + 1);
        let plan = Plan::sound(&chain, node, within(random, 1_000..=1_000_000));
        let run = nearly_planned(random, &chain, &plan)?;
        let node = node as u32;
        let fires = yardstick::fire(&chain, run, node).number == 0;
        fires.then_some((chain, run, node))
    })
}

/// Random chains of n queues with room, and an index of the sink's firing whose deadline can be had.
pub fn questions(random: &mut Random, n: usize) -> Vec<(Chain, u32)> {
    some(MANY, || {
        let mut chain = accepted(random, n);
        make_room(random, &mut chain);
        let index = within(random, 1..=1_000);
        let had = yardstick::deadline(&chain, chain.n, index).number == 0;
        had.then_some((chain, index))
    })
}

/// Random chains of n queues and states in the middle of a run, from which the next tick is clean.
pub fn ticks(random: &mut Random, n: usize) -> Vec<(Chain, Run)> {
    some(MANY, || {
        let chain = brisk(random, n);
        let run = yardstick::deadline_run(&chain, within(random, 100..=10_000)).run;
        let clean = yardstick::tick(&chain, run).kind == CLEAN;
        clean.then_some((chain, run))
    })
}

/// Random chains of n queues and states in the middle of a run, in which the source fires and its
/// queue has no room for what it produces.
pub fn lossy_ticks(random: &mut Random, n: usize) -> Vec<(Chain, Run)> {
    some(MANY, || {
        let mut chain = brisk(random, n);
        let mut run = yardstick::deadline_run(&chain, within(random, 100..=10_000)).run;
        run.clock = run.clock.next_multiple_of(chain.period);
        chain.queues[0].capacity = run.held[0].max(1);
        let made = yardstick::recording_tick(&chain, run, &Losses::default());
        (made.number == 0 && made.kind == CLEAN && made.losses.count > 0).then_some((chain, run))
    })
}

/// Random accepted chains of n queues for immediate runs, in which time plays no part.
pub fn even_chains(random: &mut Random, n: usize) -> Vec<Chain> {
    (0..FEW)
        .map(|_| even_chain(random, n, *TICKS.end()))
        .collect()
}

/// Random accepted chains of n queues and a period whose longest deadline run is clean.
pub fn clean_chains(random: &mut Random, n: usize, period: u32) -> Vec<Chain> {
    some(FEW, || {
        let chain = even_chain(random, n, period);
        let clean = yardstick::deadline_run(&chain, MAX_TICKS).kind == CLEAN;
        clean.then_some(chain)
    })
}

/// Random accepted chains of n queues, at least 2, and a period whose longest recording run is clean
/// and loses about so many productions of the last node but one, which seldom fires: all that it has.
pub fn losing_chains(random: &mut Random, n: usize, period: u32) -> Vec<Chain> {
    let seldom = MAX_TICKS / period / LOST;
    some(FEW, || {
        let mut chain = even_chain(random, n, period);
        chain.queues[n - 2] = Queue {
            produce: 1,
            threshold: seldom,
            consume: seldom,
            capacity: 0,
            reserved: 0,
        };
        chain.queues[n - 1].produce += 1;
        chain.queues[n - 1].capacity = chain.queues[n - 1].produce - 1;
        let made = yardstick::recording_run(&chain, MAX_TICKS);
        (made.number == 0 && made.kind == CLEAN && made.losses.count > 0).then_some(chain)
    })
}

/// So many inputs, tried for until there are.
fn some<T>(count: usize, tried: impl FnMut() -> Option<T>) -> Vec<T> {
    iter::repeat_with(tried).flatten().take(count).collect()
}

/// A random accepted chain of n queues all of whose nodes fire about as often as the source and for
/// one tick: of four queues two leave the rate as it is, the third slows it to three quarters and the
/// fourth brings it back, unless it is the last. The period must leave time for all of them.
fn even_chain(random: &mut Random, n: usize, period: u32) -> Chain {
    let mut chain = Chain {
        n: n as u32,
        period,
        ..Chain::default()
    };
    for (i, queue) in chain.queues[..n].iter_mut().enumerate() {
        let unit = within(random, 1..=1_000);
        let [produce, consume] = [[1, 1], [1, 1], [3, 4], [4, 3]][i % 4];
        let consume = consume * unit;
        *queue = Queue {
            produce: produce * unit,
            threshold: consume * within(random, 1..=3) + within(random, 0..=unit),
            consume,
            capacity: 0,
            reserved: 0,
        };
    }
    chain.work[..n].fill(1);
    chain
}
