//! What the states on which one tick was compared have shown.

use crate::deadline_sights::{kind_name, kind_names};
use crate::due::waiting;
use crate::run_sights::Reasons;
use crate::sights::count_all;
use crate::tally::{Line, Tally};
use crate::ticks::Tick;
use yardstick::{
    analyse, Chain, OutcomeRun, QueueSize, Run, CLEAN, MAX_QUEUES, MAX_TICKS, NO_DEADLINE,
    OVERFLOWED,
};

/// What must be seen of ticks that are clean.
const CLEAN_TICKS: [&str; 17] = [
    "the source fires",
    "the source does not fire",
    "the source fills its queue",
    "no node works",
    "a node begins",
    "a node goes on",
    "a firing finishes",
    "a firing finishes in its first tick",
    "a firing fills its queue",
    "several wait",
    "several are due first",
    "one nearer the sink waits",
    "one nearer the source waits",
    "one that has begun waits",
    "one that has begun is below its threshold",
    "the source's step lets the node work",
    "the clock becomes 1000000",
];

/// What must be seen of ticks that overflow or lack a deadline. A node nearer the sink than one that
/// lacks a deadline lacks its own.
const ENDED: [&str; 8] = [
    "overflowed by one token",
    "overflowed while a node has no deadline",
    "overflowed while a node waits",
    "no deadline, the source's step undone",
    "no deadline, no step of the source",
    "no deadline as the source's step lets the node wait",
    "no deadline of several",
    "no deadline while one below has one",
];

/// What must be seen of ticks that are refused with 8, 9 or 17.
const REFUSED: [&str; 12] = [
    "8 before 17",
    "8 before 9",
    "17 before 9, clock",
    "17 before 9, count",
    "17 for the balance",
    "17 for the capacity",
    "17 for the work",
    "9, clock is 1000000",
    "9, clock is 4294967295",
    "9, clock before count",
    "9, several counts",
    "17 at several queues",
];

/// What must be seen of states that are not refused.
const NOT_REFUSED: [&str; 3] = [
    "a count past n is 4294967295",
    "work in several nodes",
    "work past n is too much",
];

/// The numbers and outcomes that a tick is answered with, and what is behind them.
#[derive(Default)]
pub struct Ticks {
    numbers: Tally,
    kinds: Tally<&'static str>,
    ticked: Tally,
    workers: Tally,
    finished: Tally,
    lacking: Tally,
    too_small: Tally,
    damaged: Tally,
    last_counts: Tally,
    clean: Tally<&'static str>,
    ended: Tally<&'static str>,
    refused: Tally<&'static str>,
    not_refused: Tally<&'static str>,
}

impl Ticks {
    /// Counts the answer that a tick must have.
    pub fn count(&mut self, Tick { chain, run }: &Tick, answer: &OutcomeRun) {
        self.numbers.count(answer.number);
        match answer.number {
            0 => {
                self.ticked.count(chain.n);
                self.kinds.count(kind_name(answer.kind));
                self.count_slots(chain, run);
                match answer.kind {
                    CLEAN => self.count_clean(chain, run, &answer.run),
                    _ => self.count_ended(chain, run, answer),
                }
            }
            8 | 9 | 17 => self.count_refused(chain, run, answer),
            _ => {}
        }
    }

    /// Counts what is in the slots of a state that is not refused.
    fn count_slots(&mut self, chain: &Chain, run: &Run) {
        let n = chain.n as usize;
        let begun = run.done[..n].iter().filter(|&&done| done > 0).count();
        let mut past = run.done[n..].iter().zip(&chain.work[n..]);
        let marks = [
            run.counts[n + 1..].contains(&u32::MAX),
            begun > 1,
            past.any(|(done, work)| done >= work),
        ];
        count_all(&mut self.not_refused, NOT_REFUSED, marks);
    }

    /// Counts a tick that is clean, given the states before and after it.
    fn count_clean(&mut self, chain: &Chain, before: &Run, after: &Run) {
        let n = chain.n as usize;
        let sourced = sourced(chain, before);
        let source_fires = sourced.counts[0] != before.counts[0];
        let capacities = analyse(chain).analysis.queues.map(|size| size.capacity);
        let waiting = waiting(chain, &sourced);
        let worker = (1..=n).find(|&node| worked(before, after, node));
        let begun = |node: usize| before.done[node - 1] > 0;
        let finishes = |node: usize| after.counts[node] != before.counts[node];
        let below = |node: usize| sourced.held[node - 1] < chain.queues[node - 1].threshold;
        let filled = |node: usize| node < n && after.held[node] == capacities[node];
        let others = |node: usize| waiting.iter().filter(move |(other, _)| *other != node);
        let due_first = |node: usize| {
            let own = waiting.iter().find(|(other, _)| *other == node);
            others(node).any(|(_, due)| own.is_some_and(|(_, own)| due == own))
        };
        let marks = [
            source_fires,
            !source_fires,
            source_fires && sourced.held[0] == capacities[0],
            worker.is_none(),
            worker.is_some_and(|node| !begun(node)),
            worker.is_some_and(begun),
            worker.is_some_and(finishes),
            worker.is_some_and(|node| finishes(node) && !begun(node)),
            worker.is_some_and(|node| finishes(node) && filled(node)),
            waiting.len() > 1,
            worker.is_some_and(due_first),
            worker.is_some_and(|node| others(node).any(|(other, _)| *other > node)),
            worker.is_some_and(|node| others(node).any(|(other, _)| *other < node)),
            worker.is_some_and(|node| others(node).any(|(other, _)| begun(*other))),
            (1..=n).any(|node| begun(node) && below(node)),
            worker == Some(1) && before.held[0] < chain.queues[0].threshold,
            after.clock == MAX_TICKS,
        ];
        count_all(&mut self.clean, CLEAN_TICKS, marks);
        if let Some(node) = worker {
            self.workers.count(node as u32);
            if finishes(node) {
                self.finished.count(node as u32);
            }
        }
    }

    /// Counts a tick that overflows or lacks a deadline.
    fn count_ended(&mut self, chain: &Chain, run: &Run, answer: &OutcomeRun) {
        let overflowed = answer.kind == OVERFLOWED;
        let lacks = answer.kind == NO_DEADLINE;
        let source_fires = run.clock.is_multiple_of(chain.period);
        let at = answer.at as usize;
        let waiting = match lacks {
            true => waiting(chain, &sourced(chain, run)),
            false => waiting(chain, run),
        };
        let without = waiting.iter().filter(|(_, due)| due.is_none()).count();
        let has = |&(_, due): &(usize, Option<u128>)| due.is_some();
        if lacks {
            self.lacking.count(answer.at);
        }
        let capacity = analyse(chain).analysis.queues[0].capacity;
        let marks = [
            overflowed && run.held[0] + chain.queues[0].produce == capacity + 1,
            overflowed && without > 0,
            overflowed && !waiting.is_empty(),
            lacks && source_fires,
            lacks && !source_fires,
            lacks && at == 1 && run.held[0] < chain.queues[0].threshold,
            lacks && without > 1,
            lacks && waiting.iter().any(has),
        ];
        count_all(&mut self.ended, ENDED, marks);
    }

    /// Counts a tick that is refused with 8, 9 or 17.
    fn count_refused(&mut self, chain: &Chain, run: &Run, answer: &OutcomeRun) {
        let n = chain.n as usize;
        let analysis = analyse(chain).analysis;
        let sizes: &[QueueSize] = &analysis.queues[..n];
        let reasons = Reasons::of(chain, sizes, run);
        let damaged = reasons.iter().filter(|reasons| reasons.count() > 0).count();
        let late = run.clock >= MAX_TICKS;
        let counts = run.counts[..=n].iter();
        let last = counts.filter(|&&count| count == u32::MAX).count();
        let [eight, nine, seventeen] = [8, 9, 17].map(|number| answer.number == number);
        match answer.number {
            8 => self.too_small.count(answer.place),
            17 => self.damaged.count(answer.place),
            _ if !late => self.last_counts.count(answer.place),
            _ => {}
        }
        let at = reasons.get(answer.place as usize).copied();
        let lone = |reason: fn(&Reasons) -> bool| {
            let alone = at.filter(|at| at.count() == 1 && damaged == 1);
            seventeen && alone.is_some_and(|at| reason(&at))
        };
        let marks = [
            eight && damaged > 0,
            eight && (late || last > 0),
            seventeen && late,
            seventeen && last > 0,
            lone(|at| at.off != 0),
            lone(|at| at.over),
            lone(|at| at.late),
            nine && run.clock == MAX_TICKS,
            nine && run.clock == u32::MAX,
            nine && late && last > 0,
            nine && !late && last > 1,
            seventeen && damaged > 1,
        ];
        count_all(&mut self.refused, REFUSED, marks);
    }

    /// What was seen, and what was not though it must be.
    pub fn lines(&self) -> Vec<Line> {
        let (queues, nodes) = (0..MAX_QUEUES as u32, 1..=MAX_QUEUES as u32);
        vec![
            self.numbers.line("tick", [0, 2, 4, 5, 6, 7, 8, 9, 17]),
            self.kinds.line("tick, outcome", kind_names()),
            self.ticked
                .line("tick, n of those not refused", nodes.clone()),
            self.workers.line("tick, node that works", nodes.clone()),
            self.finished
                .line("tick, node that finishes", nodes.clone()),
            self.lacking.line("tick, no deadline, node", nodes),
            self.too_small.line("tick, 8, queue", queues.clone()),
            self.damaged.line("tick, 17, queue", queues),
            self.last_counts.line(
                "tick, 9 as a count is the last, node",
                0..=MAX_QUEUES as u32,
            ),
            self.clean.line("tick, clean", CLEAN_TICKS),
            self.ended.line("tick, ended", ENDED),
            self.refused.line("tick, 8, 9 or 17", REFUSED),
            self.not_refused.line("tick, not refused", NOT_REFUSED),
        ]
    }
}

/// A state after the source's step at its clock, which must have room.
fn sourced(chain: &Chain, run: &Run) -> Run {
    let mut run = *run;
    if run.clock.is_multiple_of(chain.period) {
        run.counts[0] += 1;
        run.held[0] += chain.queues[0].produce;
    }
    run
}

/// Whether a node, not the source, has worked between two states.
fn worked(before: &Run, after: &Run, node: usize) -> bool {
    let work = |run: &Run| (run.counts[node], run.done[node - 1]);
    work(before) != work(after)
}
