//! A chain that is fired by the rule of the paper alone, one node after the other.

use compare::random::Random;
use compare::rates::capacity;
use std::ops::RangeInclusive;
use yardstick::{Chain, Queue, Run};

/// The queues of a chain, their capacities in force, what its nodes have fired and what its queues
/// hold.
#[derive(Clone)]
pub struct Simulated {
    queues: Vec<Queue>,
    capacities: Vec<u64>,
    pub counts: Vec<u64>,
    pub held: Vec<u64>,
}

impl Simulated {
    /// A valid chain in some state.
    pub fn new(chain: &Chain, run: &Run) -> Self {
        let n = chain.n as usize;
        let words = |words: &[u32]| words.iter().copied().map(u64::from).collect();
        let queues = chain.queues[..n].to_vec();
        let capacity = |queue: &Queue| u64::from(capacity(queue));
        Simulated {
            capacities: queues.iter().map(capacity).collect(),
            queues,
            counts: words(&run.counts[..=n]),
            held: words(&run.held[..n]),
        }
    }

    /// The nodes from the source to the sink.
    pub fn nodes(&self) -> RangeInclusive<usize> {
        0..=self.queues.len()
    }

    /// Whether there is a queue before a node and it holds the threshold.
    pub fn over_threshold(&self, node: usize) -> bool {
        node.checked_sub(1)
            .is_some_and(|before| self.held[before] >= u64::from(self.queues[before].threshold))
    }

    /// Whether a node may fire, and what it puts out has room.
    pub fn permits(&self, node: usize) -> bool {
        let room = self.queues.get(node).is_none_or(|queue| {
            self.held[node] + u64::from(queue.produce) <= self.capacities[node]
        });
        (node == 0 || self.over_threshold(node)) && room
    }

    /// Whether the node that a node feeds is over its threshold.
    fn feeds_waiting(&self, node: usize) -> bool {
        node < self.queues.len() && self.over_threshold(node + 1)
    }

    /// One of the nodes that may fire; none if none may.
    pub fn permitted(&self, random: &mut Random) -> Option<usize> {
        one_of(random, self.nodes().filter(|&node| self.permits(node)))
    }

    /// One of the nodes but the source that may fire; none if none may.
    pub fn permitted_behind(&self, random: &mut Random) -> Option<usize> {
        let may = |&node: &usize| node > 0 && self.permits(node);
        one_of(random, self.nodes().filter(may))
    }

    /// One of the nodes that may fire while the node they feed is below its threshold; none if
    /// none may.
    pub fn prompt(&self, random: &mut Random) -> Option<usize> {
        let may = |&node: &usize| self.permits(node) && !self.feeds_waiting(node);
        one_of(random, self.nodes().filter(may))
    }

    /// The node nearest the sink that is over its threshold, else the source.
    pub fn next(&self) -> usize {
        let mut nodes = self.nodes().rev();
        nodes.find(|&node| self.over_threshold(node)).unwrap_or(0)
    }

    /// Fires a node that is permitted.
    pub fn fire(&mut self, node: usize) {
        self.counts[node] += 1;
        if let Some(queue) = self.queues.get(node) {
            self.held[node] += u64::from(queue.produce);
        }
        if let Some(before) = node.checked_sub(1) {
            self.held[before] -= u64::from(self.queues[before].consume);
        }
    }

    /// The state with clock 0, no work done and zeros past n.
    pub fn run(&self) -> Run {
        let mut run = Run::default();
        for (word, &count) in run.counts.iter_mut().zip(&self.counts) {
            *word = count as u32;
        }
        for (word, &held) in run.held.iter_mut().zip(&self.held) {
            *word = held as u32;
        }
        run
    }
}

/// One of some nodes; none if there is none.
fn one_of(random: &mut Random, nodes: impl Iterator<Item = usize>) -> Option<usize> {
    let nodes: Vec<usize> = nodes.collect();
    (!nodes.is_empty()).then(|| random.pick(&nodes))
}
