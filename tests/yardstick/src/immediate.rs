//! The immediate run, with check 9.

use crate::chain::{Chain, Queue, Refusal};
use crate::run::{runnable, take_effect, Run, RunAnswer};

/// The most firings of a node.
pub const MAX_FIRINGS: u32 = 1_000_000;

/// The state after a run of so many source firings from a fresh start, after checks 2, 4, 5, 6, 7,
/// 8 and 9.
pub fn immediate(chain: &Chain, firings: u32) -> RunAnswer {
    RunAnswer::from(ran(chain, firings))
}

/// The checks in order, then the firings one by one.
fn ran(chain: &Chain, firings: u32) -> Result<Run, Refusal> {
    runnable(chain)?;
    check_counts(&chain.queues[..chain.n as usize], firings)?;
    let mut run = Run::default();
    for _ in 0..firings {
        fire(chain, &mut run, 0);
    }
    Ok(run)
}

/// Check 9: the count at the end of every node from the source on. One that passes ends the search,
/// so that no product has more than 36 bits.
fn check_counts(queues: &[Queue], firings: u32) -> Result<(), Refusal> {
    let mut count = u64::from(firings);
    for node in 0..=queues.len() {
        if count > u64::from(MAX_FIRINGS) {
            return Err(Refusal {
                number: 9,
                place: node as u32,
            });
        }
        if let Some(queue) = queues.get(node) {
            count = count_behind(queue, count);
        }
    }
    Ok(())
}

/// The count of a queue's consumer, given that of its producer, when the queue is settled.
fn count_behind(queue: &Queue, count: u64) -> u64 {
    let produced = u64::from(queue.produce) * count;
    match produced.checked_sub(u64::from(queue.threshold)) {
        Some(above) => above / u64::from(queue.consume) + 1,
        None => 0,
    }
}

/// Fires a node, and settles the queue after it.
fn fire(chain: &Chain, run: &mut Run, node: usize) {
    take_effect(chain, run, node);
    if node < chain.n as usize {
        settle(chain, run, node);
    }
}

/// Fires the node after a queue until the queue is below its threshold.
fn settle(chain: &Chain, run: &mut Run, queue: usize) {
    while run.held[queue] >= chain.queues[queue].threshold {
        fire(chain, run, queue + 1);
    }
}
