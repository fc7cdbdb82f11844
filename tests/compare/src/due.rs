//! Deadlines by the rule of the paper as exact numbers, past every limit.

use compare::rates::{capacity, LIMIT};
use yardstick::{Chain, Run};

/// The indexes of firings on the way from a node's firing down to the source, that of the node first.
/// A number that 128 bits can't hold is cut to the largest they can.
pub fn indexes(chain: &Chain, node: usize, index: u64) -> Vec<u128> {
    let mut indexes = vec![u128::from(index)];
    for queue in chain.queues[..node].iter().rev() {
        let last = indexes[indexes.len() - 1];
        let tokens = (last - 1)
            .saturating_mul(u128::from(queue.consume))
            .saturating_add(u128::from(capacity(queue)));
        indexes.push(tokens / u128::from(queue.produce) + 1);
    }
    indexes
}

/// The deadline of a node's firing; none if an index on the way passes the limit.
pub fn due(chain: &Chain, node: usize, index: u64) -> Option<u128> {
    let indexes = indexes(chain, node, index);
    let source = indexes[node];
    let within = indexes.iter().all(|&index| index <= u128::from(LIMIT));
    within.then(|| (source - 1) * u128::from(chain.period))
}

/// The nodes other than the source whose queue holds the threshold, each with the deadline of its
/// next firing if that can be had.
pub fn waiting(chain: &Chain, run: &Run) -> Vec<(usize, Option<u128>)> {
    let waits = |&node: &usize| run.held[node - 1] >= chain.queues[node - 1].threshold;
    let due = |node| (node, due(chain, node, u64::from(run.counts[node]) + 1));
    (1..=chain.n as usize).filter(waits).map(due).collect()
}
