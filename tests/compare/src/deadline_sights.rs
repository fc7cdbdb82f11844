//! What the inputs on which the deadline question and the deadline run were compared have shown.

use crate::deadline_runs::Request;
use crate::due::indexes;
use crate::questions::Question;
use crate::sights::count_all;
use crate::stretches::{Next, Stretch, NEXT};
use crate::tally::{Line, Tally};
use compare::rates::{capacity, minimum, LIMIT};
use yardstick::{
    analyse, deadline_run, Chain, DeadlineAnswer, OutcomeRun, Queue, Run, CLEAN, MAX_QUEUES,
    MAX_TICKS, NO_DEADLINE, OVERFLOWED,
};

/// What must be seen of deadlines that are had.
const HAD: [&str; 8] = [
    "index is 1",
    "index is 4294967295",
    "due is 0",
    "due passes 32 bits",
    "B is 0",
    "B is b",
    "B > b",
    "an index is rounded",
];

/// What must be seen of deadlines that are not.
const NOT_HAD: [&str; 9] = [
    "8 before 11, no such node",
    "8 before 11, index 0",
    "8 before 13",
    "11 as the index is 0",
    "11 as the source's index is 0",
    "11 as there is no node",
    "11 before 13",
    "13 at several nodes",
    "13 though the source's index is within",
];

/// The names of the kinds of outcome, by their number.
const KINDS: [&str; 3] = ["clean", "overflowed", "no deadline"];

/// What must be seen of deadline runs that are clean.
const CLEAN_RUNS: [&str; 14] = [
    "0 ticks",
    "1 tick",
    "1000000 ticks",
    "1000000 ticks, one firing takes all",
    "1000000 ticks, one firing takes the first",
    "ends before an overflow",
    "ends before no deadline",
    "the sink fires",
    "work is left undone",
    "the load is 1",
    "an execution time is above the period",
    "B is 0, b or more",
    "a node fires at the end",
    "the source would fire at the end",
];

/// What must be seen of work in a long stretch that was kept while another node was at work.
const KEPT: [&str; 2] = ["it goes on", "it is finished"];

/// What must be seen of deadline runs that end before their last tick.
const ENDED: [&str; 7] = [
    "overflowed at the last tick",
    "overflowed before",
    "overflowed by one token",
    "overflowed after a long stretch",
    "no deadline, the source's step undone",
    "no deadline, no step of the source",
    "no deadline of a later firing",
];

/// What must be seen of deadline runs that are refused with 8 or 9.
const REFUSED_RUNS: [&str; 4] = [
    "8 before 9",
    "8 by one token",
    "9 as it has 1000001 ticks",
    "9 as it has 4294967295 ticks",
];

/// The name of an outcome's kind.
pub fn kind_name(kind: u32) -> &'static str {
    KINDS.get(kind as usize).copied().unwrap_or("no such kind")
}

/// All kinds of outcome by their names.
pub fn kind_names() -> [&'static str; 3] {
    [CLEAN, OVERFLOWED, NO_DEADLINE].map(kind_name)
}

/// The numbers that the deadline question is answered with, and what is behind them.
#[derive(Default)]
pub struct Questions {
    numbers: Tally,
    answered: Tally,
    nodes: Tally,
    too_small: Tally,
    past: Tally,
    past_by_one: Tally,
    last: Tally,
    had: Tally<&'static str>,
    not_had: Tally<&'static str>,
}

impl Questions {
    /// Counts the answer that a question must have.
    pub fn count(&mut self, question: &Question, answer: &DeadlineAnswer) {
        self.numbers.count(answer.number);
        match answer.number {
            0 => self.count_had(question, answer.due),
            8 | 11 | 13 => self.count_not_had(question, answer),
            _ => {}
        }
    }

    /// Counts a deadline that is had.
    fn count_had(&mut self, Question { chain, node, index }: &Question, due: u64) {
        self.answered.count(chain.n);
        self.nodes.count(*node);
        let indexes = indexes(chain, *node as usize, u64::from(*index));
        for (node, &index) in (0..=*node).rev().zip(&indexes) {
            if index == u128::from(LIMIT) {
                self.last.count(node);
            }
        }
        let way = &chain.queues[..*node as usize];
        let rounded = |(queue, &index): (&Queue, &u128)| {
            let tokens = (index - 1) * u128::from(queue.consume) + u128::from(capacity(queue));
            !tokens.is_multiple_of(u128::from(queue.produce))
        };
        let marks = [
            *index == 1,
            *index == u32::MAX,
            due == 0,
            due > LIMIT,
            way.iter().any(|queue| queue.capacity == 0),
            way.iter().any(|queue| queue.capacity == minimum(queue)),
            way.iter().any(|queue| queue.capacity > minimum(queue)),
            way.iter().rev().zip(&indexes).any(rounded),
        ];
        count_all(&mut self.had, HAD, marks);
    }

    /// Counts a question that is refused with 8, 11 or 13.
    fn count_not_had(
        &mut self,
        Question { chain, node, index }: &Question,
        answer: &DeadlineAnswer,
    ) {
        let there = *node <= chain.n;
        let indexes = match *index {
            1.. if there => indexes(chain, *node as usize, u64::from(*index)),
            _ => Vec::new(),
        };
        let past = indexes.iter().filter(|&&index| index > u128::from(LIMIT));
        let past = past.count();
        let [eight, eleven, thirteen] = [8, 11, 13].map(|number| answer.number == number);
        if eight {
            self.too_small.count(answer.place);
        }
        if thirteen {
            self.past.count(answer.place);
            let index = indexes[(*node - answer.place) as usize];
            if index == u128::from(LIMIT) + 1 {
                self.past_by_one.count(answer.place);
            }
        }
        let source = indexes.last().copied().unwrap_or(0);
        let marks = [
            eight && !there,
            eight && *index == 0,
            eight && past > 0,
            eleven && there && *node > 0,
            eleven && *node == 0,
            eleven && !there && *index > 0,
            eleven && !there && *index == u32::MAX,
            thirteen && past > 1,
            thirteen && source <= u128::from(LIMIT),
        ];
        count_all(&mut self.not_had, NOT_HAD, marks);
    }

    /// What was seen, and what was not though it must be.
    pub fn lines(&self) -> Vec<Line> {
        let (queues, nodes) = (0..MAX_QUEUES as u32, 0..=MAX_QUEUES as u32);
        vec![
            self.numbers.line("deadline", [0, 2, 4, 5, 6, 7, 8, 11, 13]),
            self.answered
                .line("deadline, n of those had", 1..=MAX_QUEUES as u32),
            self.nodes.line("deadline, node", nodes.clone()),
            self.last
                .line("deadline, an index is 4294967295, node", nodes),
            self.too_small.line("deadline, 8, queue", queues.clone()),
            self.past.line("deadline, 13, node", queues.clone()),
            self.past_by_one
                .line("deadline, 13 as an index is 4294967296, node", queues),
            self.had.line("deadline, had", HAD),
            self.not_had.line("deadline, 8, 11 or 13", NOT_HAD),
        ]
    }
}

/// The numbers and outcomes that the deadline run is answered with, and what is behind them.
#[derive(Default)]
pub struct DeadlineRuns {
    numbers: Tally,
    kinds: Tally<&'static str>,
    ran: Tally,
    too_small: Tally,
    lacking: Tally,
    workers: Tally,
    in_stretch: Tally<Next>,
    past_stretch: Tally<Next>,
    kept: Tally<&'static str>,
    clean: Tally<&'static str>,
    ended: Tally<&'static str>,
    refused: Tally<&'static str>,
}

impl DeadlineRuns {
    /// Counts the answer that a run must have.
    pub fn count(&mut self, Request { chain, ticks }: &Request, answer: &OutcomeRun) {
        self.numbers.count(answer.number);
        match answer.number {
            0 => {
                self.ran.count(chain.n);
                self.kinds.count(kind_name(answer.kind));
                match answer.kind {
                    CLEAN => self.count_clean(chain, *ticks, answer),
                    _ => self.count_ended(chain, *ticks, answer),
                }
            }
            8 | 9 => self.count_refused(chain, *ticks, answer),
            _ => {}
        }
    }

    /// Counts a run that is clean.
    fn count_clean(&mut self, chain: &Chain, ticks: u32, answer: &OutcomeRun) {
        let n = chain.n as usize;
        let run = &answer.run;
        let queues = &chain.queues[..n];
        let analysis = analyse(chain).analysis;
        let shorter = deadline_run(chain, ticks.saturating_sub(1)).run;
        let longer = deadline_run(chain, ticks + 1);
        let capacities = [
            queues.iter().any(|queue| queue.capacity == 0),
            queues.iter().any(|queue| queue.capacity == minimum(queue)),
            queues.iter().any(|queue| queue.capacity > minimum(queue)),
        ];
        let marks = [
            ticks == 0,
            ticks == 1,
            ticks == MAX_TICKS,
            ticks == MAX_TICKS && chain.work[0] == ticks && run.counts[1] == 1,
            ticks == MAX_TICKS && chain.work[0] == 1 && run.counts[1] == 1,
            longer.kind == OVERFLOWED,
            longer.kind == NO_DEADLINE,
            run.counts[n] > 0,
            run.done[..n].iter().any(|&done| done > 0),
            analysis.busy == analysis.cycle,
            chain.work[..n].iter().any(|&work| work > chain.period),
            capacities == [true; 3],
            run.counts[1..] != shorter.counts[1..],
            ticks.is_multiple_of(chain.period),
        ];
        count_all(&mut self.clean, CLEAN_RUNS, marks);
        if let Some(stretch) = Stretch::up_to(chain, run, &longer) {
            self.workers.count(stretch.worker.unwrap_or(0) as u32);
            self.in_stretch.count(stretch.next);
            let goes_on = stretch.next == Next::StaysAtWork;
            count_all(&mut self.kept, [KEPT[0]], [stretch.resumed && goes_on]);
        }
        if run.counts != shorter.counts {
            self.count_past_stretch(chain, &shorter, answer);
        }
    }

    /// Counts a clean run whose last tick is no quiet one, given the state before that, if it comes
    /// past a long stretch.
    fn count_past_stretch(&mut self, chain: &Chain, before: &Run, answer: &OutcomeRun) {
        if let Some(stretch) = Stretch::up_to(chain, before, answer) {
            self.past_stretch.count(stretch.next);
            let finished = stretch.next == Next::Finished;
            count_all(&mut self.kept, [KEPT[1]], [stretch.resumed && finished]);
        }
    }

    /// Counts a run that overflows or lacks a deadline.
    fn count_ended(&mut self, chain: &Chain, ticks: u32, answer: &OutcomeRun) {
        let overflowed = answer.kind == OVERFLOWED;
        let lacks = answer.kind == NO_DEADLINE;
        let sourced = answer.tick.is_multiple_of(chain.period);
        if lacks {
            self.lacking.count(answer.at);
        }
        let queue = &chain.queues[0];
        let full = answer.run.held[0] + queue.produce;
        let stretch = Stretch::up_to(chain, &answer.run, answer);
        let marks = [
            overflowed && ticks == answer.tick + 1,
            overflowed && ticks > answer.tick + 1,
            overflowed && full == analyse(chain).analysis.queues[0].capacity + 1,
            overflowed && stretch.is_some(),
            lacks && sourced,
            lacks && !sourced,
            lacks && answer.run.counts[answer.at as usize] > 0,
        ];
        count_all(&mut self.ended, ENDED, marks);
    }

    /// Counts a run that is refused with 8 or 9.
    fn count_refused(&mut self, chain: &Chain, ticks: u32, answer: &OutcomeRun) {
        let eight = answer.number == 8;
        if eight {
            self.too_small.count(answer.place);
        }
        let one_less = |queue: &Queue| queue.capacity + 1 == minimum(queue);
        let marks = [
            eight && ticks > MAX_TICKS,
            eight && one_less(&chain.queues[answer.place as usize]),
            !eight && ticks == MAX_TICKS + 1,
            !eight && ticks == u32::MAX,
        ];
        count_all(&mut self.refused, REFUSED_RUNS, marks);
    }

    /// What was seen, and what was not though it must be. In a run within the limit no index of N_1
    /// comes near its own.
    pub fn lines(&self) -> Vec<Line> {
        let [_, _, ended @ .., _] = NEXT;
        vec![
            self.numbers.line("deadline run", [0, 2, 4, 5, 6, 7, 8, 9]),
            self.kinds.line("deadline run, outcome", kind_names()),
            self.ran
                .line("deadline run, n of those run", 1..=MAX_QUEUES as u32),
            self.too_small
                .line("deadline run, 8, queue", 0..MAX_QUEUES as u32),
            self.lacking
                .line("deadline run, no deadline, node", 2..=MAX_QUEUES as u32),
            self.workers.line(
                "deadline run, node at work in a long stretch, 0 for none",
                0..=MAX_QUEUES as u32,
            ),
            self.in_stretch
                .line("deadline run, ends in a long stretch, a tick more", NEXT),
            self.past_stretch
                .line("deadline run, ends a tick past a long stretch", ended),
            self.kept.line("deadline run, kept work", KEPT),
            self.clean.line("deadline run, clean", CLEAN_RUNS),
            self.ended.line("deadline run, ended", ENDED),
            self.refused.line("deadline run, 8 or 9", REFUSED_RUNS),
        ]
    }
}
