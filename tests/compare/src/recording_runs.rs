//! Chains and ticks to compare the recording run on: runs of every length and load, with and without
//! losses, runs that end with a full list or without a deadline and those around, refused ones, and a
//! few as long as can be.

use crate::analysed;
use crate::deadline_runs::{self, queue_of, without_deadline, LARGE_CONSUME};
use crate::lists::entries;
use crate::recordings::{lossy, tighten_some};
use crate::records::littered;
use crate::runs::littered_if_valid;
use crate::sparse::{brisk_or_sparse, relay, sparse};
use compare::chains::{any_word, within};
use compare::loaded::accepted;
use compare::random::Random;
use compare::timed::Load;
use yardstick::{
    analyse, recording_run, Chain, Losses, CLEAN, LIST_FULL, MAX_QUEUES, MAX_TICKS, NO_DEADLINE,
};

pub use crate::deadline_runs::Request;

/// The most ticks of a run that is not meant to be long, and of one on a sparse chain.
const FEW: u32 = 2_000;
const MANY: u32 = 30_000;

/// The most times that a sparse chain has the ticks of a brisk one.
const MANY_TIMES: u32 = 60;

/// The runs of each kind at each node and each queue, for every n.
const REPEATS: usize = 2;

/// The queues of chains in which two losses fall on one instant.
const CROWDED: [usize; 4] = [3, 4, 6, 12];

/// The most execution time of the node that keeps the others from working.
const LONG_WORK: u32 = 60;

/// A random recording run of a chain of n queues, no long one.
pub fn any(random: &mut Random, n: usize) -> Request {
    match random.below(16) {
        0 => unrelated(random, n),
        1 => too_long(random, n),
        2 => slow(random, n),
        3 | 4 => quiet(random, n),
        5..=7 => ending(random, n),
        8 | 9 => deadline_runs::any(random, n),
        _ => small(random, n),
    }
}

/// Runs that end with a full list at every queue and without a deadline at every node that can lack
/// one after a loss, each of several lengths around its end, for every n.
pub fn limits(random: &mut Random) -> Vec<Request> {
    let mut requests = Vec::new();
    for n in 1..=MAX_QUEUES {
        for _ in 0..REPEATS {
            for queue in 0..n {
                let chain = dropping(random, n, queue);
                requests.extend(around_end(random, &chain, MANY));
            }
            requests.extend([MAX_TICKS + 1, u32::MAX].map(|ticks| Request {
                chain: lossy(random, n),
                ticks,
            }));
        }
        for node in 2..=n {
            let chain = lacking(random, n, node);
            requests.extend(around_end(random, &chain, MAX_TICKS));
        }
        if n > 1 {
            let chain = without_deadline(random, n, n);
            requests.extend(around_end(random, &chain, MAX_TICKS));
        }
    }
    for n in CROWDED {
        let chain = crowded(random, n);
        requests.extend(around_end(random, &chain, FEW));
    }
    requests
}

/// Runs of as many ticks as can be and of one less: without losses, and with few.
pub fn long(random: &mut Random) -> Vec<Request> {
    let without = [1, 3, MAX_QUEUES].map(|n| deadline_runs::clean(random, n, Load::Heavy));
    let with_few = [2, 5, MAX_QUEUES].map(|n| with_few_losses(random, n));
    let requests = |chains: [Chain; 3]| {
        let ticks = [MAX_TICKS, MAX_TICKS, MAX_TICKS - 1];
        chains
            .into_iter()
            .zip(ticks)
            .map(|(chain, ticks)| Request { chain, ticks })
    };
    requests(without).chain(requests(with_few)).collect()
}

/// A chain of n queues whose runs are made at each length: brisk or with a few times its ticks.
pub fn for_each_length(random: &mut Random, n: usize) -> Chain {
    let mut chain = brisk_or_sparse(random, n);
    if random.below(4) > 0 {
        tighten_some(random, &mut chain.queues[..n]);
    }
    chain
}

/// A chain whose recording run has to come a long way to a node without a deadline.
pub fn far_away() -> Chain {
    let mut chain = Chain {
        n: 3,
        period: 2,
        ..Chain::default()
    };
    let rows = [
        [1, 1, 1, 1],
        [1, 65_535, 65_535, 65_535],
        [1, 1, 1, 1_000_000],
    ];
    chain.queues[..3].copy_from_slice(&rows.map(queue_of));
    chain.work[..3].copy_from_slice(&[1, 3, 1]);
    chain
}

/// Any chain and any ticks, as long as they are few or too many.
fn unrelated(random: &mut Random, n: usize) -> Request {
    let chain = analysed::any(random, n);
    let ticks = match any_word(random) {
        ticks if ticks > MAX_TICKS => ticks,
        ticks => ticks % FEW,
    };
    Request {
        chain: littered_if_valid(random, chain),
        ticks,
    }
}

/// A run of more ticks than may be.
fn too_long(random: &mut Random, n: usize) -> Request {
    let chain = lossy(random, n);
    let more = random.word() % (u32::MAX - MAX_TICKS) + 1;
    Request {
        chain: littered(random, chain),
        ticks: random.pick(&[MAX_TICKS + 1, u32::MAX, MAX_TICKS + more]),
    }
}

/// A run of few ticks in which much happens.
fn small(random: &mut Random, n: usize) -> Request {
    let chain = lossy(random, n);
    let ticks = match random.below(4) {
        0 => chain.period * random.below(16) as u32 + random.pick(&[0, 1]),
        1 => random.below(4) as u32,
        _ => random.below(FEW as usize) as u32,
    };
    Request {
        chain: littered(random, chain),
        ticks,
    }
}

/// A run of few ticks on a chain of any numbers, in which little happens.
fn slow(random: &mut Random, n: usize) -> Request {
    let chain = accepted(random, n);
    Request {
        chain: littered(random, chain),
        ticks: random.below(FEW as usize) as u32,
    }
}

/// A run on a chain in which nodes work for long, each of whose queues may have too little room.
fn quiet(random: &mut Random, n: usize) -> Request {
    let times = within(random, 2..=MANY_TIMES);
    let slow = 1 + random.below(n);
    let mut chain = match random.below(2) {
        0 => sparse(random, n, times),
        _ => relay(random, n, slow),
    };
    tighten_some(random, &mut chain.queues[..n]);
    let ticks = match random.below(2) {
        0 => chain.period.saturating_mul(random.below(12) as u32) + random.pick(&[0, 1]),
        _ => random.below(MANY as usize) as u32,
    };
    Request {
        chain: littered(random, chain),
        ticks: ticks.min(MANY),
    }
}

/// A run to the instant at which it ends or next to it, or a longer one; where it does not end soon,
/// to its last loss or next to that.
fn ending(random: &mut Random, n: usize) -> Request {
    let chain = lossy(random, n);
    let ended = recording_run(&chain, MANY / 4);
    let last = (ended.losses.count as usize).saturating_sub(1);
    let end = match ended.kind {
        CLEAN => ended.losses.entries[last].tick,
        _ => ended.tick,
    };
    Request {
        chain: littered(random, chain),
        ticks: (end + random.pick(&[0, 1, 2, 1_000])).saturating_sub(1),
    }
}

/// Runs around the instant at which a run of so many ticks ends, and around that of its last loss.
fn around_end(random: &mut Random, chain: &Chain, most: u32) -> Vec<Request> {
    let ended = recording_run(chain, most);
    let last = (ended.losses.count as usize).saturating_sub(1);
    let loss = ended.losses.entries[last].tick;
    let ticks = [ended.tick, ended.tick + 1, loss, loss + 1];
    let request = |ticks: u32| Request {
        chain: littered(random, *chain),
        ticks: ticks.min(most),
    };
    ticks.map(request).into()
}

/// A chain of n queues one of which drops all that it is to have, so that its list is soon full; the
/// others have room.
fn dropping(random: &mut Random, n: usize, queue: usize) -> Chain {
    loop {
        let mut chain = Chain {
            n: n as u32,
            period: n as u32 + within(random, 1..=n as u32),
            ..Chain::default()
        };
        for slot in &mut chain.queues[..n] {
            let both = within(random, 2..=6);
            *slot = queue_of([both, both, both, random.pick(&[0, 10 * both])]);
        }
        chain.queues[queue].capacity = chain.queues[queue].produce - 1;
        chain.work[..n].fill(1);
        if recording_run(&chain, MANY).kind == LIST_FULL {
            return chain;
        }
    }
}

/// A chain of n queues in whose run two productions are dropped at one instant.
fn crowded(random: &mut Random, n: usize) -> Chain {
    loop {
        let chain = lossy(random, n);
        if twice_at_once(&recording_run(&chain, FEW).losses) {
            return chain;
        }
    }
}

/// Whether two entries of a list have the same tick.
pub fn twice_at_once(losses: &Losses) -> bool {
    entries(losses)
        .windows(2)
        .any(|pair| pair[0].tick == pair[1].tick)
}

/// A chain of n queues whose recording run ends as the deadline of a node behind N_1 can't be had,
/// after losses: a node before it works for so long that the source's queue, or another, fills.
fn lacking(random: &mut Random, n: usize, node: usize) -> Chain {
    loop {
        let mut chain = without_deadline(random, n, node);
        let slow = chain
            .queues
            .iter()
            .position(|queue| queue.consume >= LARGE_CONSUME);
        chain.work[slow.unwrap_or(0)] = within(random, 4..=LONG_WORK);
        if analyse(&chain).number != 0 {
            continue;
        }
        let ended = recording_run(&chain, MAX_TICKS);
        if ended.kind == NO_DEADLINE && ended.losses.count > 0 {
            return chain;
        }
    }
}

/// A chain of n queues, at least 2, whose longest recording run is clean and has losses: queues are
/// too small for the time that the last node, which seldom works, takes.
fn with_few_losses(random: &mut Random, n: usize) -> Chain {
    loop {
        let mut chain = Chain {
            n: n as u32,
            period: 4 * n as u32,
            ..Chain::default()
        };
        chain.queues[..n].fill(queue_of([1, 1, 1, 0]));
        chain.work[..n].fill(1);
        let times = within(random, 4_000..=60_000);
        chain.queues[n - 1] = queue_of([1, times, times, 0]);
        chain.work[n - 1] = within(random, 20 * n as u32..=200 * n as u32);
        let ended = recording_run(&chain, MAX_TICKS);
        if ended.number == 0 && ended.kind == CLEAN && ended.losses.count > 0 {
            return chain;
        }
    }
}
