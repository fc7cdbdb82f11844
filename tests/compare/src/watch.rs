//! Watches what the library's firings do on small chains, and holds it against what is promised of
//! every order of firings: balance, minimum, naming count, immediate run and rate.

use crate::comparison::{same_answer, Failure};
use crate::library::Library;
use crate::runs::affordable;
use crate::sights::count_all;
use crate::simulated::Simulated;
use crate::tally::Tally;
use compare::random::Random;
use yardstick::{Chain, QueueSize, Run, RunAnswer};

/// The firings of an order, and about so many of one that the source ends.
const STEPS: usize = 60;

/// The most source firings in which a node's rate is looked for.
const LONGEST_TURN: u32 = 120;

/// What must be seen of small chains.
pub const SIGHTS: [&str; 13] = [
    "a queue holds its minimum in a prompt order",
    "a queue holds more than its minimum in another order",
    "a producer fires by times",
    "a producer fires by times in a prompt order",
    "the minimum is held before that",
    "an order ends as no node may fire",
    "B < b",
    "immediate: the sink fires",
    "immediate: a producer fires by times",
    "immediate: any order ends the same",
    "immediate: a rate",
    "a node is below its threshold",
    "a queue has no room",
];

/// A small chain, what the library's analysis says of its queues, and what was seen so far.
pub struct Watch<'a> {
    library: &'a mut Library,
    seen: &'a mut Tally<&'static str>,
    chain: &'a Chain,
    sizes: Vec<QueueSize>,
}

/// What an order of firings that the library accepts comes to: the most that each queue has held,
/// and the last state.
struct Followed {
    peaks: Vec<u32>,
    run: Run,
}

impl<'a> Watch<'a> {
    /// Starts to watch a chain, which must be accepted.
    pub fn new(
        library: &'a mut Library,
        seen: &'a mut Tally<&'static str>,
        chain: &'a Chain,
    ) -> Result<Self, Failure> {
        let analysis = library.analyse(chain)?;
        let fresh = library.fresh(chain)?;
        if analysis.number != 0 {
            return Err(Failure::Broken("a small chain is accepted"));
        }
        same_answer("the fresh start", &fresh, &RunAnswer::default())?;
        Ok(Watch {
            library,
            seen,
            chain,
            sizes: analysis.analysis.queues[..chain.n as usize].to_vec(),
        })
    }

    /// Watches a permitted order, a prompt one and, unless a capacity is below its minimum, an
    /// immediate run.
    pub fn all(&mut self, random: &mut Random) -> Result<(), Failure> {
        self.any_order(random)?;
        self.prompt_order(random)?;
        if self.sizes.iter().any(|size| size.margin < 0) {
            self.seen.count("B < b");
            return Ok(());
        }
        let k = affordable(self.chain, 1 + random.below(STEPS) as u32, 3 * STEPS as u64);
        self.immediate(k)?;
        self.same_end(random, k)?;
        self.rate(random, k)
    }

    /// Watches a random permitted order.
    fn any_order(&mut self, random: &mut Random) -> Result<(), Failure> {
        let nodes = self.order(|line| line.permitted(random));
        let followed = self.follow(&nodes)?;
        let above = |(peak, size): (&u32, &QueueSize)| *peak > size.minimum;
        let marks = [
            followed.peaks.iter().zip(&self.sizes).any(above),
            nodes.len() < STEPS,
        ];
        count_all(self.seen, [SIGHTS[1], SIGHTS[5]], marks);
        self.each_node(&followed.run)
    }

    /// Watches the firing of each node from a state: it is accepted where it is permitted, and else
    /// refused for what waits for the node or for the room behind it.
    fn each_node(&mut self, run: &Run) -> Result<(), Failure> {
        let line = Simulated::new(self.chain, run);
        for node in line.nodes() {
            let below = node > 0 && !line.over_threshold(node);
            let full = !below && !line.permits(node);
            let answer = self.library.fire(self.chain, run, node as u32)?;
            let due = match (below, full) {
                (true, _) => 11,
                (_, true) => 12,
                _ => 0,
            };
            if answer.number != due {
                return Err(Failure::Broken("a firing is accepted if it is permitted"));
            }
            count_all(self.seen, [SIGHTS[11], SIGHTS[12]], [below, full]);
        }
        Ok(())
    }

    /// Watches a random order in which no node fires while the node it feeds is over its threshold:
    /// no queue passes its minimum.
    fn prompt_order(&mut self, random: &mut Random) -> Result<(), Failure> {
        let nodes = self.order(|line| line.prompt(random));
        let followed = self.follow(&nodes)?;
        let mut both = followed.peaks.iter().zip(&self.sizes);
        if both.any(|(&peak, size)| peak > size.minimum) {
            return Err(Failure::Broken(
                "no queue passes its minimum in a prompt order",
            ));
        }
        let held = |(peak, size): (&u32, &QueueSize)| *peak == size.minimum;
        let fired = |(count, size): (&u32, &QueueSize)| *count >= size.by;
        let marks = [
            followed.peaks.iter().zip(&self.sizes).any(held),
            followed.run.counts.iter().zip(&self.sizes).any(fired),
        ];
        count_all(self.seen, [SIGHTS[0], SIGHTS[3]], marks);
        Ok(())
    }

    /// Watches an immediate run: its state is that of the order by the rule, and the queue of a
    /// producer that fired by times has held exactly the minimum.
    fn immediate(&mut self, k: u32) -> Result<(), Failure> {
        let mut line = Simulated::new(self.chain, &Run::default());
        let mut nodes = Vec::new();
        loop {
            let node = line.next();
            if node == 0 && line.counts[0] == u64::from(k) {
                break;
            }
            if !line.permits(node) {
                return Err(Failure::Broken("an immediate run has room"));
            }
            line.fire(node);
            nodes.push(node as u32);
        }
        let followed = self.follow(&nodes)?;
        self.ends_as(k, &line.run())?;
        self.ends_as(k, &followed.run)?;
        let counts = &followed.run.counts;
        for (i, size) in self.sizes.iter().enumerate() {
            let fired = counts[i] >= size.by;
            if fired && followed.peaks[i] != size.minimum {
                return Err(Failure::Broken(
                    "a producer's queue has held exactly the minimum in an immediate run",
                ));
            }
            count_all(self.seen, [SIGHTS[8]], [fired]);
        }
        count_all(self.seen, [SIGHTS[7]], [counts[self.sizes.len()] > 0]);
        Ok(())
    }

    /// Watches a permitted order with so many source firings after which no other node is over its
    /// threshold: it ends as the immediate run does.
    fn same_end(&mut self, random: &mut Random, k: u32) -> Result<(), Failure> {
        let mut line = Simulated::new(self.chain, &Run::default());
        let mut nodes = Vec::new();
        loop {
            let node = if line.counts[0] < u64::from(k) {
                line.permitted(random)
            } else {
                line.permitted_behind(random)
            };
            let Some(node) = node else { break };
            line.fire(node);
            nodes.push(node as u32);
        }
        if line.counts[0] < u64::from(k) || line.next() > 0 {
            return Err(Failure::Broken("some node may fire until an order ends"));
        }
        let followed = self.follow(&nodes)?;
        self.seen.count(SIGHTS[9]);
        self.ends_as(k, &followed.run)
    }

    /// Watches the rate of a node that fires in an immediate run: it fires x times more when the
    /// source fires on for y ticks.
    fn rate(&mut self, random: &mut Random, k: u32) -> Result<(), Failure> {
        let node = 1 + random.below(self.sizes.len());
        let size = self.sizes[node - 1];
        let turn = size.y / self.chain.period;
        if turn > LONGEST_TURN {
            return Ok(());
        }
        let [before, after] = [k, k + turn].map(|k| self.library.immediate(self.chain, k));
        let (before, after) = (before?, after?);
        let fired = before.run.counts[node];
        if before.number != 0 || after.number != 0 || fired == 0 {
            return Ok(());
        }
        if after.run.counts[node] != fired + size.x {
            return Err(Failure::Broken("a node fires x times in y ticks"));
        }
        self.seen.count(SIGHTS[10]);
        Ok(())
    }

    /// An order of firings from a fresh start, each chosen from the line as it is then, until there
    /// is none.
    fn order(&self, mut chosen: impl FnMut(&Simulated) -> Option<usize>) -> Vec<u32> {
        let mut line = Simulated::new(self.chain, &Run::default());
        let mut nodes = Vec::with_capacity(STEPS);
        while nodes.len() < STEPS {
            let Some(node) = chosen(&line) else { break };
            line.fire(node);
            nodes.push(node as u32);
        }
        nodes
    }

    /// Has the library fire nodes that are permitted from a fresh start on. After each firing the
    /// counts are how often each node was fired, each queue holds what was put in less what was
    /// taken out, and where a producer fired by times its queue has held the minimum.
    fn follow(&mut self, nodes: &[u32]) -> Result<Followed, Failure> {
        let mut counts = vec![0; self.sizes.len() + 1];
        let mut followed = Followed {
            peaks: vec![0; self.sizes.len()],
            run: Run::default(),
        };
        let answers = self.library.history(self.chain, &followed.run, nodes)?;
        for (&node, answer) in nodes.iter().zip(&answers) {
            counts[node as usize] += 1;
            followed.run = answer.run;
            if answer.number != 0 {
                return Err(Failure::Broken("a permitted firing is accepted"));
            }
            self.balanced(&counts, &answer.run)?;
            for (peak, &held) in followed.peaks.iter_mut().zip(&answer.run.held) {
                *peak = held.max(*peak);
            }
            self.named(node as usize, &answer.run, &followed.peaks)?;
        }
        Ok(followed)
    }

    /// Whether the counts of a state are these, and what is held is what they put in and took out.
    fn balanced(&self, counts: &[u32], run: &Run) -> Result<(), Failure> {
        if run.counts[..counts.len()] != *counts {
            return Err(Failure::Broken("counts are how often each node was fired"));
        }
        for (i, pair) in counts.windows(2).enumerate() {
            let queue = &self.chain.queues[i];
            if queue.produce * pair[0] != run.held[i] + queue.consume * pair[1] {
                return Err(Failure::Broken(
                    "a queue holds what was put in less what was taken out",
                ));
            }
        }
        Ok(())
    }

    /// Whether the queue behind a node that was fired by times has held the minimum.
    fn named(&mut self, node: usize, run: &Run, peaks: &[u32]) -> Result<(), Failure> {
        let Some(size) = self.sizes.get(node) else {
            return Ok(());
        };
        let (fired, held) = (run.counts[node], peaks[node] >= size.minimum);
        if fired >= size.by && !held {
            return Err(Failure::Broken(
                "a producer fires by times only if its queue has held the minimum",
            ));
        }
        let marks = [fired == size.by, fired < size.by && held];
        count_all(self.seen, [SIGHTS[2], SIGHTS[4]], marks);
        Ok(())
    }

    /// Whether an immediate run of so many source firings ends in a state.
    fn ends_as(&mut self, k: u32, run: &Run) -> Result<(), Failure> {
        let answer = self.library.immediate(self.chain, k)?;
        let due = RunAnswer {
            number: 0,
            place: 0,
            run: *run,
        };
        same_answer("the answer of the immediate run", &answer, &due)
    }
}
