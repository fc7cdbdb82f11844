//! Random accepted chains in which little happens within many ticks: their periods and execution
//! times are long, so that no node fires for a while.

use crate::stretches::LONG;
use compare::chains::within;
use compare::random::Random;
use compare::small::bare;
use compare::timed::{brisk, with_room};
use yardstick::{analyse, deadline_run, tick, Chain, Run};

/// The most tokens that a firing puts in.
const MOST_TOKENS: u32 = 8;

/// The most times that a chain has the ticks of a brisk one if something is to happen soon, and the
/// most periods after which its source and a node fire at once.
const FEW_TIMES: u32 = 16;
const FEW_PERIODS: u32 = 4;

/// A random accepted chain of n queues whose period and execution times are those of a brisk one so
/// many times, or a tick less or more.
pub fn sparse(random: &mut Random, n: usize, times: u32) -> Chain {
    loop {
        let mut chain = brisk(random, n);
        let work = chain.work[..n].iter_mut();
        for ticks in work.chain([&mut chain.period]) {
            *ticks = *ticks * times - 1 + random.pick(&[0, 1, 1, 2]);
        }
        if analyse(&chain).number == 0 {
            return chain;
        }
    }
}

/// A random accepted chain of n queues, brisk or with the ticks of a brisk one a few times; in some
/// cases a node fires as the source does or a tick before.
pub fn brisk_or_sparse(random: &mut Random, n: usize) -> Chain {
    let times = within(random, 2..=FEW_TIMES);
    let chain = match random.below(2) {
        0 => brisk(random, n),
        _ => sparse(random, n, times),
    };
    let cut_after = |periods| cut(&chain, &deadline_run(&chain, periods * chain.period).run);
    match (1..=FEW_PERIODS).find_map(cut_after) {
        Some([before, at_once]) => random.pick(&[chain, before, at_once]),
        None => chain,
    }
}

/// Two chains that differ from one by the execution time of the node that goes on with its first
/// firing in a state in which the source is to fire: it fires a tick before, or as the source does,
/// and nothing before that is changed. None if no such node goes on.
pub fn cut(chain: &Chain, last: &Run) -> Option<[Chain; 2]> {
    let next = tick(chain, *last).run;
    let worker = (0..chain.n as usize).find(|&i| next.done[i] > last.done[i]);
    let i = worker.filter(|&i| last.done[i] > 0 && last.counts[i + 1] == 0)?;
    Some([last.done[i], next.done[i]].map(|work| {
        let mut chain = *chain;
        chain.work[i] = work;
        chain
    }))
}

/// A random accepted chain of n queues whose nodes work for long, each as often as the one before
/// it. One is slow: it works once for several firings of the one before, and for up to all the time
/// that the others leave.
pub fn relay(random: &mut Random, n: usize, slow: usize) -> Chain {
    let turns = within(random, 2..=3);
    let mut chain = Chain {
        n: n as u32,
        ..Chain::default()
    };
    for node in 1..=n {
        let produce = within(random, 1..=MOST_TOKENS);
        let consume = produce * if node == slow { turns } else { 1 };
        let more = if random.below(8) == 0 { produce } else { 0 };
        let queue = bare(random, [produce, consume], more);
        chain.queues[node - 1] = with_room(random, queue);
        chain.work[node - 1] = within(random, 2 * LONG + 2..=4 * LONG);
    }
    let before: u32 = chain.work[..slow - 1].iter().sum();
    let behind: u32 = chain.work[slow..n].iter().sum();
    let left = behind + within(random, 4 * LONG..=8 * LONG);
    let most = turns * left - behind;
    chain.period = before + left;
    chain.work[slow - 1] = within(random, most / 2..=most);
    chain
}
