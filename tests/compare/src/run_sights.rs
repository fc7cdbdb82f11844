//! What the inputs on which the fresh start, manual firing and the immediate run were compared have
//! shown.

use crate::firings::Firing;
use crate::runs::{counts, Request};
use crate::sights::count_all;
use crate::tally::{Line, Tally};
use compare::rates::minimum;
use std::collections::BTreeSet;
use yardstick::{analyse, Chain, Queue, QueueSize, Run, RunAnswer, MAX_FIRINGS, MAX_QUEUES};

/// The numbers that a firing of an accepted chain is answered with.
const FIRING_NUMBERS: [u32; 5] = [0, 9, 11, 12, 17];

/// What must be seen of firings that are accepted.
const FIRED: [&str; 9] = [
    "held is the threshold",
    "fills the capacity",
    "fills the minimum as B is 0",
    "B is 0",
    "B < b",
    "B > b",
    "count becomes 4294967295",
    "a queue holds its capacity",
    "done is e - 1",
];

/// What must be seen of firings that are refused with 9, 11 or 12 of a node that there is.
const NOT_FIRED: [&str; 6] = [
    "9 before 11",
    "9 before 12",
    "11 before 12",
    "11 by one token",
    "12 by one token",
    "12 by one token as B is 0",
];

/// What must be seen of firings of a node that there is not.
const NO_NODES: [&str; 6] = [
    "n + 1",
    "17",
    "4294967295",
    "a node if cut to 8 bits",
    "a node if cut to 16 bits",
    "n + 1, whose slot has 4294967295",
];

/// What must be seen of damaged states.
const DAMAGED: [&str; 12] = [
    "one more is held",
    "one less is held",
    "held is the capacity + 1",
    "held is the minimum + 1 as B is 0",
    "done is e",
    "a negative balance as a word",
    "several queues",
    "all reasons",
    "17 before 9",
    "17 before 11",
    "17 before 11, no such node",
    "17 before 12",
];

/// What must be seen of damaged states too, and is not refused with 17.
const CHAIN_REFUSED: &str = "the chain is refused";

/// What must be seen of walks on one chain.
const WALKS: [&str; 2] = ["every number on one chain", "1000 firings on one chain"];

/// What must be seen of immediate runs that are not refused.
const RAN: [&str; 8] = [
    "k is 0",
    "k is 1000000",
    "the sink fires",
    "only the source fires",
    "B is 0",
    "B is b",
    "B > b",
    "produced passes 32 bits",
];

/// What must be seen of immediate runs that are refused with 8 or 9.
const NOT_RAN: [&str; 6] = [
    "8 before 9",
    "8 at several queues",
    "8 by one token",
    "9 as k is 1000001",
    "9 as k is 4294967295",
    "9 lost in 32 bits",
];

/// Why a queue's state is damaged.
#[derive(Clone, Copy, Default)]
pub struct Reasons {
    /// What is held less what it should be.
    pub off: i64,
    pub over: bool,
    pub late: bool,
}

impl Reasons {
    /// The reasons of each queue of an accepted chain.
    pub fn of(chain: &Chain, sizes: &[QueueSize], run: &Run) -> Vec<Self> {
        let reasons = |(i, size): (usize, &QueueSize)| {
            let queue = &chain.queues[i];
            let put = i64::from(queue.produce) * i64::from(run.counts[i]);
            let taken = i64::from(queue.consume) * i64::from(run.counts[i + 1]);
            Reasons {
                off: i64::from(run.held[i]) - (put - taken),
                over: run.held[i] > size.capacity,
                late: run.done[i] >= chain.work[i],
            }
        };
        sizes.iter().enumerate().map(reasons).collect()
    }

    /// How many there are.
    pub fn count(&self) -> usize {
        usize::from(self.off != 0) + usize::from(self.over) + usize::from(self.late)
    }
}

/// The numbers that manual firing answered with, and what was behind them.
#[derive(Default)]
pub struct Firings {
    numbers: Tally,
    accepted: Tally,
    fired_nodes: Tally,
    last_counts: Tally,
    below_threshold: Tally,
    full: Tally,
    lone_balance: Tally,
    lone_wrapped: Tally,
    lone_capacity: Tally,
    lone_work: Tally,
    fired: Tally<&'static str>,
    not_fired: Tally<&'static str>,
    no_nodes: Tally<&'static str>,
    damaged: Tally<&'static str>,
    walks: Tally<&'static str>,
}

impl Firings {
    /// Counts the answer that a firing must have.
    pub fn count(&mut self, Firing { chain, run, node }: &Firing, answer: &RunAnswer) {
        self.numbers.count(answer.number);
        if !FIRING_NUMBERS.contains(&answer.number) {
            let damaged = run.held[0] > 1_000_000;
            count_all(&mut self.damaged, [CHAIN_REFUSED], [damaged]);
            return;
        }
        let sizes = analyse(chain).analysis.queues;
        let sizes = &sizes[..chain.n as usize];
        match answer.number {
            0 => self.count_fired(chain, sizes, run, *node),
            17 => self.count_damaged(chain, sizes, run, *node, answer.place),
            _ if *node > chain.n => self.count_no_node(chain.n, run, *node),
            number => self.count_not_fired(chain, sizes, run, *node, number, answer.place),
        }
    }

    /// Counts a firing that is accepted.
    fn count_fired(&mut self, chain: &Chain, sizes: &[QueueSize], run: &Run, node: u32) {
        self.accepted.count(chain.n);
        self.fired_nodes.count(node);
        let around = Around::new(chain, sizes, run, node);
        let full = around.full_by() == Some(0);
        let own = around.behind.map(|(queue, _, _)| queue.capacity);
        let margin = around.behind.map_or(0, |(_, size, _)| size.margin);
        let done = |i: usize| run.done[i] + 1 == chain.work[i] && chain.work[i] > 1;
        let marks = [
            around.below_by() == Some(0),
            full && own != Some(0),
            full && own == Some(0),
            own == Some(0),
            margin < 0,
            margin > 0,
            around.count == u32::MAX - 1,
            sizes
                .iter()
                .zip(run.held)
                .any(|(size, held)| held == size.capacity),
            (0..sizes.len()).any(done),
        ];
        count_all(&mut self.fired, FIRED, marks);
    }

    /// Counts a firing that is refused with 9, 11 or 12, of a node that there is.
    fn count_not_fired(
        &mut self,
        chain: &Chain,
        sizes: &[QueueSize],
        run: &Run,
        node: u32,
        number: u32,
        place: u32,
    ) {
        match number {
            9 => self.last_counts.count(place),
            11 => self.below_threshold.count(place),
            _ => self.full.count(place),
        }
        let around = Around::new(chain, sizes, run, node);
        let below = around.below_by().is_some_and(|by| by < 0);
        let full_by = around.full_by().unwrap_or(0);
        let own = around
            .behind
            .is_some_and(|(queue, _, _)| queue.capacity > 0);
        let marks = [
            number == 9 && below,
            number == 9 && full_by > 0,
            number == 11 && full_by > 0,
            number == 11 && around.below_by() == Some(-1),
            number == 12 && full_by == 1 && own,
            number == 12 && full_by == 1 && !own,
        ];
        count_all(&mut self.not_fired, NOT_FIRED, marks);
    }

    /// Counts a firing of a node that a chain of n queues does not have.
    fn count_no_node(&mut self, n: u32, run: &Run, node: u32) {
        let next = node == n + 1;
        let marks = [
            next,
            node == 17,
            node == u32::MAX,
            node & 0xff <= n,
            node & 0xffff <= n,
            next && run.counts.get(node as usize) == Some(&u32::MAX),
        ];
        count_all(&mut self.no_nodes, NO_NODES, marks);
    }

    /// Counts a firing from a damaged state.
    fn count_damaged(
        &mut self,
        chain: &Chain,
        sizes: &[QueueSize],
        run: &Run,
        node: u32,
        place: u32,
    ) {
        let reasons = Reasons::of(chain, sizes, run);
        let bad = reasons.iter().filter(|reasons| reasons.count() > 0).count();
        let at = reasons[place as usize];
        let lone = bad == 1 && at.count() == 1;
        if lone {
            let words = at.off != 0 && at.off % (1 << 32) == 0;
            let tallies = [
                (at.off != 0 && !words, &mut self.lone_balance),
                (words, &mut self.lone_wrapped),
                (at.over, &mut self.lone_capacity),
                (at.late, &mut self.lone_work),
            ];
            for (seen, tally) in tallies {
                if seen {
                    tally.count(place);
                }
            }
        }
        let i = place as usize;
        let one_over = lone && at.over && run.held[i] == sizes[i].capacity + 1;
        let own = chain.queues[i].capacity > 0;
        let there = node <= chain.n;
        let around = there.then(|| Around::new(chain, sizes, run, node));
        let last = around.is_some_and(|around| around.count == u32::MAX);
        let below = around.and_then(|around| around.below_by());
        let full = around.and_then(|around| around.full_by());
        let marks = [
            lone && at.off == 1,
            lone && at.off == -1,
            one_over && own,
            one_over && !own,
            lone && at.late && run.done[i] == chain.work[i],
            at.off == 1 << 32 && at.over,
            bad > 1,
            reasons.iter().any(|reasons| reasons.count() == 3),
            last,
            below.is_some_and(|by| by < 0),
            !there,
            full.is_some_and(|by| by > 0),
        ];
        count_all(&mut self.damaged, DAMAGED, marks);
    }

    /// Counts the answers that the histories on one chain must have.
    pub fn count_walk(&mut self, walk: &[Vec<RunAnswer>]) {
        let answers = || walk.iter().flatten();
        let numbers: BTreeSet<u32> = answers().map(|answer| answer.number).collect();
        answers().for_each(|answer| self.numbers.count(answer.number));
        let fired = answers().filter(|answer| answer.number == 0).count();
        let every = FIRING_NUMBERS.iter().all(|number| numbers.contains(number));
        count_all(&mut self.walks, WALKS, [every, fired >= 1_000]);
    }

    /// What was seen, and what was not though it must be.
    pub fn lines(&self) -> Vec<Line> {
        let (queues, nodes) = (0..MAX_QUEUES as u32, 0..=MAX_QUEUES as u32);
        let behind = 1..=MAX_QUEUES as u32;
        vec![
            self.numbers.line("fire", [0, 2, 4, 5, 6, 7, 9, 11, 12, 17]),
            self.accepted.line("fire, n of those fired", behind.clone()),
            self.fired_nodes.line("fire, node fired", nodes.clone()),
            self.last_counts.line("fire, 9, node", nodes),
            self.below_threshold
                .line("fire, 11 as below threshold, node", behind),
            self.full.line("fire, 12, queue", queues.clone()),
            self.lone_balance
                .line("fire, 17 for the balance alone, queue", queues.clone()),
            self.lone_wrapped
                .line("fire, 17 lost in 32 bits, queue", queues.clone()),
            self.lone_capacity
                .line("fire, 17 for the capacity alone, queue", queues.clone()),
            self.lone_work
                .line("fire, 17 for the work alone, queue", queues),
            self.fired.line("fire, fired", FIRED),
            self.not_fired.line("fire, 9, 11 or 12", NOT_FIRED),
            self.no_nodes.line("fire, 11 as there is no node", NO_NODES),
            self.damaged
                .line("fire, damaged", DAMAGED.into_iter().chain([CHAIN_REFUSED])),
            self.walks.line("fire, walks", WALKS),
        ]
    }
}

/// What is around a node of a chain in some state: its count, and the queues before and behind it
/// with what they hold.
#[derive(Clone, Copy)]
struct Around<'a> {
    count: u32,
    before: Option<(&'a Queue, u32)>,
    behind: Option<(&'a Queue, &'a QueueSize, u32)>,
}

impl<'a> Around<'a> {
    /// What is around a node that there is.
    fn new(chain: &'a Chain, sizes: &'a [QueueSize], run: &Run, node: u32) -> Self {
        let i = node as usize;
        let before = i.checked_sub(1);
        Around {
            count: run.counts[i],
            before: before.map(|before| (&chain.queues[before], run.held[before])),
            behind: sizes
                .get(i)
                .map(|size| (&chain.queues[i], size, run.held[i])),
        }
    }

    /// What the queue before holds less its threshold.
    fn below_by(&self) -> Option<i64> {
        let by = |(queue, held): (&Queue, u32)| i64::from(held) - i64::from(queue.threshold);
        self.before.map(by)
    }

    /// What the queue behind would hold less its capacity.
    fn full_by(&self) -> Option<i64> {
        self.behind.map(|(queue, size, held)| {
            i64::from(held) + i64::from(queue.produce) - i64::from(size.capacity)
        })
    }
}

/// The numbers that the immediate run answered with, and what was behind them.
#[derive(Default)]
pub struct Runs {
    numbers: Tally,
    accepted: Tally,
    too_small: Tally,
    too_long: Tally,
    at_limit: Tally,
    past_limit: Tally,
    ran: Tally<&'static str>,
    not_ran: Tally<&'static str>,
}

impl Runs {
    /// Counts the answer that a run must have.
    pub fn count(&mut self, Request { chain, k }: &Request, answer: &RunAnswer) {
        self.numbers.count(answer.number);
        match answer.number {
            0 => self.count_ran(chain, *k),
            8 | 9 => self.count_not_ran(chain, *k, answer),
            _ => {}
        }
    }

    /// Counts a run that is not refused.
    fn count_ran(&mut self, chain: &Chain, k: u32) {
        self.accepted.count(chain.n);
        let counts = counts(chain, k);
        for (node, &count) in counts.iter().enumerate() {
            if count == u64::from(MAX_FIRINGS) {
                self.at_limit.count(node as u32);
            }
        }
        let queues = &chain.queues[..chain.n as usize];
        let produced = |(queue, count): (&Queue, &u64)| u64::from(queue.produce) * count;
        let mut most = queues.iter().zip(&counts).map(produced);
        let marks = [
            k == 0,
            k == MAX_FIRINGS,
            counts[queues.len()] > 0,
            k > 0 && counts[1] == 0,
            queues.iter().any(|queue| queue.capacity == 0),
            queues.iter().any(|queue| queue.capacity == minimum(queue)),
            queues.iter().any(|queue| queue.capacity > minimum(queue)),
            most.any(|produced| produced > u64::from(u32::MAX)),
        ];
        count_all(&mut self.ran, RAN, marks);
    }

    /// Counts a run that is refused with 8 or 9.
    fn count_not_ran(&mut self, chain: &Chain, k: u32, answer: &RunAnswer) {
        let counts = counts(chain, k);
        let last = counts[counts.len() - 1];
        let long = last > u64::from(MAX_FIRINGS);
        let queues = &chain.queues[..chain.n as usize];
        let small = |queue: &&Queue| (1..minimum(queue)).contains(&queue.capacity);
        let too_small = queues.iter().filter(small).count();
        let place = answer.place as usize;
        let [eight, nine] = [8, 9].map(|number| answer.number == number);
        if eight {
            self.too_small.count(answer.place);
        } else {
            self.too_long.count(answer.place);
            if last == u64::from(MAX_FIRINGS) + 1 {
                self.past_limit.count(answer.place);
            }
        }
        let one_less = |queue: &Queue| queue.capacity + 1 == minimum(queue);
        let marks = [
            eight && long,
            eight && too_small > 1,
            eight && one_less(&queues[place]),
            nine && k == MAX_FIRINGS + 1,
            nine && k == u32::MAX,
            nine && place > 0 && lost(&queues[place - 1], counts[place - 1]),
        ];
        count_all(&mut self.not_ran, NOT_RAN, marks);
    }

    /// What was seen, and what was not though it must be.
    pub fn lines(&self) -> Vec<Line> {
        let nodes = 0..=MAX_QUEUES as u32;
        vec![
            self.numbers.line("immediate", [0, 2, 4, 5, 6, 7, 8, 9]),
            self.accepted
                .line("immediate, n of those run", 1..=MAX_QUEUES as u32),
            self.too_small
                .line("immediate, 8, queue", 0..MAX_QUEUES as u32),
            self.too_long.line("immediate, 9, node", nodes.clone()),
            self.at_limit
                .line("immediate, 1000000 firings, node", nodes.clone()),
            self.past_limit
                .line("immediate, 9 by one firing, node", nodes),
            self.ran.line("immediate, run", RAN),
            self.not_ran.line("immediate, 8 or 9", NOT_RAN),
        ]
    }
}

/// Whether a consumer's count would not pass the limit if what is produced were cut to 32 bits.
fn lost(queue: &Queue, count: u64) -> bool {
    let produced = u64::from(queue.produce) * count % (1 << 32);
    let above = produced.saturating_sub(u64::from(queue.threshold));
    above / u64::from(queue.consume) < u64::from(MAX_FIRINGS)
}
