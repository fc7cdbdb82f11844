//! Watches the library's deadline runs instant by instant, and holds their states against what the
//! paper says of every instant: balance and capacity of every queue, the source's step, the node that
//! works, and how a run ends.

use crate::comparison::Failure;
use crate::due::waiting;
use crate::library::Library;
use crate::sights::count_all;
use crate::tally::Tally;
use compare::rates::capacity;
use yardstick::{Chain, OutcomeRun, Run, CLEAN, NO_DEADLINE, OVERFLOWED};

/// The instants in a row without a firing that make a quiet stretch.
const QUIET: usize = 4;

/// What must be seen of the instants of runs.
pub const SIGHTS: [&str; 13] = [
    "a queue holds its capacity",
    "no node waits",
    "a firing takes effect",
    "a node is interrupted",
    "several nodes are due first",
    "one nearer the sink waits",
    "clean to the end",
    "overflowed",
    "no deadline",
    "the source ends a quiet stretch in which no node works",
    "the source ends a quiet stretch in which a node works",
    "a firing ends a quiet stretch",
    "both end a quiet stretch",
];

/// A chain that is run, the node that worked last, how many instants have passed since the last
/// firing, and what was seen so far.
struct Instants<'a> {
    chain: &'a Chain,
    worker: Option<usize>,
    quiet: usize,
    seen: &'a mut Tally<&'static str>,
}

/// Watches the deadline runs of a chain that must be accepted and have room: of no tick, of one, and
/// so on to so many.
pub fn watch_runs(
    library: &mut Library,
    seen: &mut Tally<&'static str>,
    chain: &Chain,
    most: u32,
) -> Result<(), Failure> {
    let answers = library.each_length(chain, most)?;
    watch(seen, chain, &answers)
}

/// Watches so many ticks of such a chain from a fresh start.
pub fn watch_ticks(
    library: &mut Library,
    seen: &mut Tally<&'static str>,
    chain: &Chain,
    ticks: u32,
) -> Result<(), Failure> {
    let mut answers = vec![OutcomeRun::default()];
    answers.extend(library.ticks(chain, &Run::default(), u64::from(ticks))?);
    watch(seen, chain, &answers)
}

/// Watches answers that follow each other from a fresh start.
fn watch(
    seen: &mut Tally<&'static str>,
    chain: &Chain,
    answers: &[OutcomeRun],
) -> Result<(), Failure> {
    let mut instants = Instants {
        chain,
        worker: None,
        quiet: 0,
        seen,
    };
    if answers[0] != OutcomeRun::default() {
        return Err(Failure::Broken("a run of no tick is a fresh start"));
    }
    for pair in answers.windows(2) {
        instants.next(&pair[0], &pair[1])?;
    }
    let clean = answers[answers.len() - 1].kind == CLEAN;
    count_all(seen, [SIGHTS[6]], [clean]);
    Ok(())
}

impl Instants<'_> {
    /// Watches a run that is a tick longer than another.
    fn next(&mut self, before: &OutcomeRun, after: &OutcomeRun) -> Result<(), Failure> {
        if after.number != 0 || after.place != 0 {
            return Err(Failure::Broken("an accepted chain with room is run"));
        }
        self.sound(&after.run)?;
        match (before.kind, after.kind) {
            (CLEAN, CLEAN) => self.goes_on(&before.run, &after.run),
            (CLEAN, _) => self.ends(&before.run, after),
            _ if after == before => Ok(()),
            _ => Err(Failure::Broken("a run that has ended goes no further")),
        }
    }

    /// Whether every queue holds what was put in less what was taken out, and no more than its
    /// capacity.
    fn sound(&mut self, run: &Run) -> Result<(), Failure> {
        for (i, queue) in self.chain.queues[..self.chain.n as usize]
            .iter()
            .enumerate()
        {
            let put = u64::from(queue.produce) * u64::from(run.counts[i]);
            let taken = u64::from(queue.consume) * u64::from(run.counts[i + 1]);
            if put != u64::from(run.held[i]) + taken {
                return Err(Failure::Broken(
                    "a queue holds what was put in less what was taken out",
                ));
            }
            if run.held[i] > capacity(queue) {
                return Err(Failure::Broken("no queue holds more than its capacity"));
            }
            count_all(self.seen, [SIGHTS[0]], [run.held[i] == capacity(queue)]);
        }
        Ok(())
    }

    /// Whether one instant leads from a state to another: the source's step, a tick of work of the
    /// waiting node that is due first, of several the one nearest the sink, and its effect if that
    /// was its last.
    fn goes_on(&mut self, before: &Run, after: &Run) -> Result<(), Failure> {
        let mut due = self
            .sourced(before)
            .ok_or(Failure::Broken("a run without room for the source ends"))?;
        let waiting = waiting(self.chain, &due);
        let earliest = waiting.iter().map(|(_, due)| *due).min().flatten();
        if waiting.iter().any(|(_, due)| due.is_none()) {
            return Err(Failure::Broken("a run without a deadline ends"));
        }
        let first = waiting.iter().filter(|(_, due)| *due == earliest);
        let worker = first.clone().map(|(node, _)| *node).max();
        if let Some(node) = worker {
            self.work(&mut due, node);
        }
        due.clock += 1;
        if *after != due {
            return Err(Failure::Broken("an instant is one of the paper's"));
        }
        let fired = worker.is_some_and(|node| after.counts[node] != before.counts[node]);
        let stopped = |node: usize| after.done[node - 1] > 0 && worker.is_some_and(|on| on != node);
        let marks = [
            worker.is_none(),
            fired,
            self.worker.is_some_and(stopped),
            first.count() > 1,
            waiting.last().map(|(node, _)| *node) > worker,
        ];
        let [_, idle, effect, interrupted, several, nearer, ..] = SIGHTS;
        let sights = [idle, effect, interrupted, several, nearer];
        count_all(self.seen, sights, marks);
        let source = after.counts[0] != before.counts[0];
        self.count_quiet(source, fired && worker == self.worker);
        self.quiet = if source || fired { 0 } else { self.quiet + 1 };
        self.worker = worker;
        Ok(())
    }

    /// Counts an instant at which the source fires, or the node that worked before, if it ends a
    /// quiet stretch.
    fn count_quiet(&mut self, source: bool, fired: bool) {
        if self.quiet < QUIET {
            return;
        }
        let idle = self.worker.is_none();
        let marks = [
            source && idle,
            source && !idle && !fired,
            fired && !source,
            fired && source,
        ];
        let [.., idle, works, firing, both] = SIGHTS;
        count_all(self.seen, [idle, works, firing, both], marks);
    }

    /// Whether a run that was in a state ends there as it must.
    fn ends(&mut self, before: &Run, answer: &OutcomeRun) -> Result<(), Failure> {
        let sourced = self.sourced(before);
        let (kind, at) = match &sourced {
            None => (OVERFLOWED, 0),
            Some(sourced) => {
                let waiting = waiting(self.chain, sourced);
                let lacking = waiting.iter().find(|(_, due)| due.is_none());
                let lacking = lacking.ok_or(Failure::Broken("a run ends only as it must"))?;
                (NO_DEADLINE, lacking.0 as u32)
            }
        };
        if (answer.kind, answer.at) != (kind, at) {
            return Err(Failure::Broken("a run ends with its outcome"));
        }
        if answer.run != *before || answer.tick != before.clock {
            return Err(Failure::Broken("a run ends in the state it was in"));
        }
        count_all(
            self.seen,
            [SIGHTS[7], SIGHTS[8]],
            [kind == OVERFLOWED, kind == NO_DEADLINE],
        );
        Ok(())
    }

    /// A state after the source's step at its clock; none if the source's queue has no room.
    fn sourced(&self, run: &Run) -> Option<Run> {
        let mut run = *run;
        let queue = &self.chain.queues[0];
        if run.clock.is_multiple_of(self.chain.period) {
            run.counts[0] += 1;
            run.held[0] += queue.produce;
        }
        (run.held[0] <= capacity(queue)).then_some(run)
    }

    /// Lets a node other than the source work for a tick, and fire if that was its last.
    fn work(&self, run: &mut Run, node: usize) {
        let (chain, before) = (self.chain, node - 1);
        run.done[before] += 1;
        if run.done[before] == chain.work[before] {
            run.done[before] = 0;
            run.counts[node] += 1;
            run.held[before] -= chain.queues[before].consume;
            if node < chain.n as usize {
                run.held[node] += chain.queues[node].produce;
            }
        }
    }
}
