//! Chains and ticks to compare the deadline run on: runs of every length and load, runs that end at
//! an overflow or without a deadline and those a tick shorter, runs around the end of a long
//! stretch of quiet ticks, refused ones, and a few as long as can be.

use crate::analysed;
use crate::records::littered;
use crate::runs::{littered_if_valid, tighten};
use crate::sparse::{cut, relay, sparse};
use crate::stretches::{very_long_stretches, Next, Stretch, LONG};
use compare::chains::{any_word, within};
use compare::loaded::accepted;
use compare::random::Random;
use compare::rates::minimum;
use compare::small::make_room;
use compare::timed::{brisk, loaded, Load};
use yardstick::{
    deadline, deadline_run, Chain, Queue, CAPACITY, CLEAN, MAX_QUEUES, MAX_TICKS, NO_DEADLINE,
};

/// The most ticks of a run that is not meant to be long.
const FEW: u32 = 2_000;

/// The ticks of a run on a sparse chain within which it comes to the stretch at whose end it may
/// end, and the most times that such a chain has the ticks of a brisk one.
const MANY: usize = 20_000;
const MANY_TIMES: u32 = 300;

/// The periods within which a long stretch is looked for.
const PERIODS: u32 = 6;

/// The most queues of a chain with a long stretch that ends in a given way, and the ways in which
/// one that is looked for may end.
const FEW_QUEUES: usize = 4;
const WAYS: [Next; 5] = [
    Next::SourceWhileIdle,
    Next::SourceAndGoesOn,
    Next::SourceAndTakenOver,
    Next::Finished,
    Next::Overflow,
];

/// The runs of each kind at each node and each queue, for every n.
const REPEATS: usize = 3;

/// The consume with which a deadline is soon past every index: a million firings take more than
/// 4,294,967,295 tokens.
pub const LARGE_CONSUME: u32 = 4_295;

/// A chain and how many ticks it is run.
pub struct Request {
    pub chain: Chain,
    pub ticks: u32,
}

/// A random run of a chain of n queues, no long one.
pub fn any(random: &mut Random, n: usize) -> Request {
    let queue = random.below(n);
    match random.below(16) {
        0 => unrelated(random, n),
        1 => tight(random, n, queue),
        2 => too_long(random, n),
        3..=5 => ending(random, n),
        6 => slow(random, n),
        7 => quiet(random, n),
        _ => small(random, n),
    }
}

/// Runs that end without a deadline at every node that can lack one, runs with a capacity below the
/// minimum at every queue, and runs around the end of a long stretch of quiet ticks in which the
/// last node is at work, for every n; and runs with the longest stretches.
pub fn limits(random: &mut Random) -> Vec<Request> {
    let mut requests = Vec::new();
    for n in 1..=MAX_QUEUES {
        for _ in 0..REPEATS {
            requests.extend((0..n).map(|queue| tight(random, n, queue)));
            requests.extend((2..=n).flat_map(|node| lacking(random, n, node)));
            requests.extend([MAX_TICKS + 1, u32::MAX].map(|ticks| Request {
                chain: brisk(random, n),
                ticks,
            }));
        }
        let (chain, stretch) = with_stretch(random, n, |stretch| stretch.worker == Some(n));
        requests.extend(around(random, &chain, stretch.last.clock));
    }
    for work in [1, MAX_TICKS - 1, MAX_TICKS] {
        requests.extend(longest_stretch(work));
    }
    requests
}

/// Runs around the end of a long stretch of quiet ticks on chains of few queues: for each way in
/// which a stretch ends, and with work that was kept.
pub fn stretched(random: &mut Random) -> Vec<[Request; 3]> {
    let mut requests = Vec::new();
    for n in 2..=FEW_QUEUES {
        for next in WAYS {
            let (chain, stretch) = with_stretch(random, n, |stretch| stretch.next == next);
            requests.push(around(random, &chain, stretch.last.clock));
        }
        for (chain, end) in finished_near_source(random, n) {
            requests.push(around(random, &chain, end));
        }
        let kept = |stretch: &Stretch| stretch.resumed && stretch.next == Next::Finished;
        let (chain, stretch) = with_stretch(random, n, kept);
        requests.push(around(random, &chain, stretch.last.clock));
    }
    requests
}

/// Clean runs of as many ticks as can be, and of one less.
pub fn long(random: &mut Random) -> Vec<Request> {
    let mut requests = Vec::new();
    for n in [1, 2, 5, MAX_QUEUES] {
        for load in [Load::Light, Load::Heavy] {
            let chain = clean(random, n, load);
            let ticks = MAX_TICKS - random.pick(&[0, 0, 1]);
            requests.push(Request { chain, ticks });
        }
    }
    requests
}

/// A random chain of n queues whose longest run is clean.
pub fn clean(random: &mut Random, n: usize, load: Load) -> Chain {
    loop {
        let chain = loaded(random, n, load);
        if deadline_run(&chain, MAX_TICKS).kind == CLEAN {
            return chain;
        }
    }
}

/// Any chain and any ticks, as long as they are few or too many.
fn unrelated(random: &mut Random, n: usize) -> Request {
    let chain = analysed::any(random, n);
    let ticks = match any_word(random) {
        ticks if ticks > MAX_TICKS => ticks,
        ticks => ticks % FEW,
    };
    Request {
        chain: littered_if_valid(random, chain),
        ticks,
    }
}

/// A run of any length on a chain one of whose capacities is below the minimum.
fn tight(random: &mut Random, n: usize, queue: usize) -> Request {
    let mut chain = brisk(random, n);
    tighten(random, &mut chain.queues[queue]);
    let ticks = match minimum(&chain.queues[queue]) {
        1 => few_ticks(random),
        _ => any_word(random),
    };
    Request {
        chain: littered(random, chain),
        ticks,
    }
}

/// A run of more ticks than may be.
fn too_long(random: &mut Random, n: usize) -> Request {
    let chain = brisk(random, n);
    let more = random.word() % (u32::MAX - MAX_TICKS) + 1;
    Request {
        chain: littered(random, chain),
        ticks: random.pick(&[MAX_TICKS + 1, u32::MAX, MAX_TICKS + more]),
    }
}

/// A run of few ticks in which much happens.
fn small(random: &mut Random, n: usize) -> Request {
    let chain = brisk(random, n);
    let ticks = match random.below(4) {
        0 => chain.period * random.below(16) as u32 + random.pick(&[0, 1]),
        _ => few_ticks(random),
    };
    Request {
        chain: littered(random, chain),
        ticks,
    }
}

/// A run of few ticks on a chain of any numbers, in which little happens.
fn slow(random: &mut Random, n: usize) -> Request {
    let mut chain = accepted(random, n);
    make_room(random, &mut chain);
    Request {
        ticks: few_ticks(random),
        chain: littered(random, chain),
    }
}

/// A run on a sparse chain, in most cases to the end of a stretch of quiet ticks or next to it.
fn quiet(random: &mut Random, n: usize) -> Request {
    let times = within(random, 2..=MANY_TIMES);
    let chain = sparse(random, n, times);
    let at = random.below(MANY) as u32;
    let ticks = match random.below(4) {
        0 => at,
        _ => (stretch_end(&chain, at) + random.pick(&[0, 1, 2])).saturating_sub(1),
    };
    Request {
        chain: littered(random, chain),
        ticks,
    }
}

/// The end of the stretch of quiet ticks that an instant of a run is in: the next firing of the
/// source, or the tick in which the node at work fires, if that is earlier.
fn stretch_end(chain: &Chain, at: u32) -> u32 {
    let [last, next] = [at, at + 1].map(|ticks| deadline_run(chain, ticks).run);
    let source = at.next_multiple_of(chain.period);
    match (0..chain.n as usize).find(|&i| next.done[i] > last.done[i]) {
        Some(i) => source.min(at + chain.work[i] - next.done[i]),
        None => source,
    }
}

/// A chain of n queues in whose run there is a wanted stretch that is very long, and the last of
/// these.
fn with_stretch(
    random: &mut Random,
    n: usize,
    wanted: impl Fn(&Stretch) -> bool,
) -> (Chain, Stretch) {
    loop {
        let slow = 1 + random.below(n);
        let chain = relay(random, n, slow);
        let stretches = very_long_stretches(&chain, PERIODS * chain.period);
        if let Some(stretch) = stretches.into_iter().rfind(&wanted) {
            return (chain, stretch);
        }
    }
}

/// Two chains of n queues, each with the ticks up to the end of a long stretch after which the node
/// at work fires: a tick before the source, and as the source does.
fn finished_near_source(random: &mut Random, n: usize) -> [(Chain, u32); 2] {
    let goes_on = |stretch: &Stretch| stretch.next == Next::SourceAndGoesOn;
    loop {
        let (chain, Stretch { last, .. }) = with_stretch(random, n, goes_on);
        if let Some([before, at_once]) = cut(&chain, &last) {
            return [(before, last.clock - 1), (at_once, last.clock)];
        }
    }
}

/// Runs of as many ticks as can be and of one less, in which the source fires once, on a chain of
/// one queue whose node has a given execution time.
fn longest_stretch(work: u32) -> [Request; 2] {
    let mut chain = Chain {
        n: 1,
        period: MAX_TICKS,
        ..Chain::default()
    };
    chain.queues[0] = queue_of([1, 1, 1, 0]);
    chain.work[0] = work;
    [MAX_TICKS - 1, MAX_TICKS].map(|ticks| Request { chain, ticks })
}

/// Runs around the end of a long stretch: inside it, to its end, and a tick longer.
fn around(random: &mut Random, chain: &Chain, end: u32) -> [Request; 3] {
    let inside = end - within(random, 1..=LONG);
    [inside, end, end + 1].map(|ticks| Request {
        chain: littered(random, *chain),
        ticks,
    })
}

/// A number of ticks that is small more often than not.
fn few_ticks(random: &mut Random) -> u32 {
    match random.below(4) {
        0 => random.below(4) as u32,
        1 => random.below(FEW as usize) as u32,
        _ => random.below(200) as u32,
    }
}

/// A run on a chain with much load, to the instant at which it ends or next to it, or a longer one.
fn ending(random: &mut Random, n: usize) -> Request {
    let load = random.pick(&[Load::Heavy, Load::Full]);
    let chain = loaded(random, n, load);
    let ended = deadline_run(&chain, FEW);
    let ticks = match ended.kind {
        CLEAN => FEW,
        _ => ended.tick + random.pick(&[0, 1, 1, 2, 1_000]),
    };
    Request {
        chain: littered(random, chain),
        ticks,
    }
}

/// A run that ends without the deadline of a node behind N_1, and one that is a tick shorter.
fn lacking(random: &mut Random, n: usize, node: usize) -> [Request; 2] {
    let chain = without_deadline(random, n, node);
    let ended = deadline_run(&chain, MAX_TICKS).tick;
    [ended + 1, ended].map(|ticks| Request {
        chain: littered(random, chain),
        ticks,
    })
}

/// A chain of n queues whose run ends as the deadline of the first or the second firing of a node
/// behind N_1 can't be had: the queue before it has room for many productions, and a queue nearer the
/// source needs many firings for each of its consumer's.
pub fn without_deadline(random: &mut Random, n: usize, node: usize) -> Chain {
    loop {
        let slow = random.below(node - 1);
        let nodes_before = slow as u32;
        let mut chain = Chain {
            n: n as u32,
            period: nodes_before + within(random, 1..=3),
            ..Chain::default()
        };
        for queue in &mut chain.queues[..n] {
            let both = within(random, 1..=4);
            let threshold = both * within(random, 1..=3);
            *queue = queue_of([both, threshold, both, 0]);
        }
        let consume = within(random, LARGE_CONSUME..=LARGE_CONSUME + 1_000);
        chain.queues[slow] = queue_of([1, consume, consume, 0]);
        chain.queues[node - 1] = queue_of([1, 1, 1, *CAPACITY.end()]);
        chain.work[..n].fill(1);
        if random.below(2) == 0 {
            chain.queues[node - 1].capacity = last_capacity(&chain, node);
        }
        let ended = deadline_run(&chain, MAX_TICKS);
        if ended.kind == NO_DEADLINE && ended.at == node as u32 {
            return chain;
        }
    }
}

/// The largest capacity of the queue before a node with which the deadline of its first firing can be
/// had.
fn last_capacity(chain: &Chain, node: usize) -> u32 {
    let mut chain = *chain;
    let (mut last, mut past) = (1, *CAPACITY.end());
    while past - last > 1 {
        let middle = last + (past - last) / 2;
        chain.queues[node - 1].capacity = middle;
        if deadline(&chain, node as u32, 1).number == 0 {
            last = middle;
        } else {
            past = middle;
        }
    }
    last
}

/// A queue of produce, threshold, consume and capacity.
pub fn queue_of([produce, threshold, consume, capacity]: [u32; 4]) -> Queue {
    Queue {
        produce,
        threshold,
        consume,
        capacity,
        reserved: 0,
    }
}
