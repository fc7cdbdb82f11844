//! Quiet stretches of deadline runs: ticks in a row in which no node fires, so that the same node
//! is at work in all of them, or none is.

use std::fmt::{self, Display};
use yardstick::{deadline_run, tick, Chain, OutcomeRun, Run, CLEAN, OVERFLOWED};

/// The fewest ticks of a long stretch.
pub const LONG: u32 = 250;

/// What the tick after a stretch brings.
#[derive(Clone, Copy, PartialEq, Eq, PartialOrd, Ord)]
pub enum Next {
    StaysIdle,
    StaysAtWork,
    SourceWhileIdle,
    SourceAndGoesOn,
    SourceAndTakenOver,
    Finished,
    FinishedBeforeSource,
    FinishedAtSource,
    Overflow,
}

/// All that the tick after a stretch can bring.
pub const NEXT: [Next; 9] = [
    Next::StaysIdle,
    Next::StaysAtWork,
    Next::SourceWhileIdle,
    Next::SourceAndGoesOn,
    Next::SourceAndTakenOver,
    Next::Finished,
    Next::FinishedBeforeSource,
    Next::FinishedAtSource,
    Next::Overflow,
];

impl Next {
    /// What the tick after a stretch brings, given the node at work in it, the state at its end and
    /// the answer of that tick.
    fn of(chain: &Chain, worker: Option<usize>, last: &Run, next: &OutcomeRun) -> Self {
        let after = &next.run;
        let source = after.counts[0] > last.counts[0];
        let fired = worker.is_some_and(|node| after.counts[node] > last.counts[node]);
        let goes_on = worker.is_some_and(|node| after.done[node - 1] > last.done[node - 1]);
        match (worker, source, fired) {
            _ if next.kind == OVERFLOWED => Next::Overflow,
            (None, true, _) => Next::SourceWhileIdle,
            (None, false, _) => Next::StaysIdle,
            (_, true, true) => Next::FinishedAtSource,
            (_, true, false) if goes_on => Next::SourceAndGoesOn,
            (_, true, false) => Next::SourceAndTakenOver,
            (_, false, true) if after.clock.is_multiple_of(chain.period) => {
                Next::FinishedBeforeSource
            }
            (_, false, true) => Next::Finished,
            (_, false, false) => Next::StaysAtWork,
        }
    }
}

impl Display for Next {
    /// What it brings in words.
    fn fmt(&self, line: &mut fmt::Formatter) -> fmt::Result {
        line.write_str(match self {
            Next::StaysIdle => "no node at work as before",
            Next::StaysAtWork => "a node at work as before",
            Next::SourceWhileIdle => "the source fires, no node was at work",
            Next::SourceAndGoesOn => "the source fires, the node at work goes on",
            Next::SourceAndTakenOver => "the source fires, another node takes over",
            Next::Finished => "the node at work fires",
            Next::FinishedBeforeSource => "the node at work fires, a tick before the source",
            Next::FinishedAtSource => "the node at work fires, as does the source",
            Next::Overflow => "an overflow",
        })
    }
}

/// A stretch of quiet ticks.
pub struct Stretch {
    /// The node at work in it, if one is.
    pub worker: Option<usize>,
    /// Whether that node goes on with work from before the last firing of the source, since which
    /// another node has fired.
    pub resumed: bool,
    /// The state at its end.
    pub last: Run,
    /// What the tick after it brings.
    pub next: Next,
}

impl Stretch {
    /// The stretch between two states of a run, given the state before the last firing of the
    /// source and the answer of the tick after it.
    fn between(chain: &Chain, sourced: &Run, [first, last]: [&Run; 2], next: &OutcomeRun) -> Self {
        let nodes = 1..=chain.n as usize;
        let works = |&node: &usize| last.done[node - 1] > first.done[node - 1];
        let fired = |node: usize| last.counts[node] > sourced.counts[node];
        let begun = |node: usize| sourced.done[node - 1] > 0 && !fired(node);
        let worker = nodes.clone().find(works);
        Stretch {
            worker,
            resumed: worker.is_some_and(begun) && nodes.into_iter().any(fired),
            last: *last,
            next: Next::of(chain, worker, last, next),
        }
    }

    /// The long stretch that a run ends in or with, if there is one, given the state it left and
    /// the answer of a run that is a tick longer, if that is not refused.
    pub fn up_to(chain: &Chain, last: &Run, next: &OutcomeRun) -> Option<Self> {
        if chain.period <= LONG || next.number != 0 {
            return None;
        }
        let first = deadline_run(chain, last.clock.checked_sub(LONG)?).run;
        if first.counts != last.counts {
            return None;
        }
        let source = (last.clock - 1) / chain.period * chain.period;
        let sourced = deadline_run(chain, source).run;
        Some(Stretch::between(chain, &sourced, [&first, last], next))
    }
}

/// The stretches of twice as many ticks as a long one, or more, that end in a run of so many ticks;
/// they are found tick by tick.
pub fn very_long_stretches(chain: &Chain, ticks: u32) -> Vec<Stretch> {
    let mut stretches = Vec::new();
    let mut last = Run::default();
    let [mut sourced, mut first] = [last; 2];
    for _ in 0..ticks {
        let next = tick(chain, last);
        if next.kind != CLEAN || next.run.counts != last.counts {
            if last.clock - first.clock >= 2 * LONG {
                let states = [&first, &last];
                stretches.push(Stretch::between(chain, &sourced, states, &next));
            }
            first = next.run;
        }
        if next.kind != CLEAN {
            break;
        }
        if next.run.counts[0] != last.counts[0] {
            sourced = last;
        }
        last = next.run;
    }
    stretches
}
