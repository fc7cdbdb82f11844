//! What the chains on which the recording run was compared have shown.

use crate::lists::entries;
use crate::recording_runs::{twice_at_once, Request};
use crate::recording_sights::{fits, kind_name, kind_names, tight};
use crate::sights::count_all;
use crate::tally::{Line, Tally};
use yardstick::{
    deadline_run, Chain, Loss, Recording, CLEAN, LIST_FULL, MAX_LOSSES, MAX_QUEUES, MAX_TICKS,
    NO_DEADLINE, OVERFLOWED,
};

/// What must be seen of recording runs that are clean.
const CLEAN_RUNS: [&str; 14] = [
    "0 ticks",
    "1 tick",
    "nothing lost",
    "nothing lost, a capacity below the minimum",
    "1000000 ticks, nothing lost",
    "1000000 ticks, something lost",
    "256 losses",
    "a loss at the last instant",
    "a loss a tick before",
    "the source would lose at the end",
    "several queues lose",
    "two losses at one instant",
    "carries on past an overflow of the deadline run",
    "a node fires behind a queue that has lost",
];

/// What must be seen of recording runs that end before their last tick.
const ENDED: [&str; 7] = [
    "list full at the source, at the last tick",
    "list full at the source, before",
    "list full at a finish, at the last instant",
    "list full at a finish, before",
    "no deadline, nothing lost",
    "no deadline after a loss",
    "no deadline, the source's loss taken back",
];

/// What must be seen of recording runs that are refused with 9.
const REFUSED_RUNS: [&str; 3] = [
    "9 as it has 1000001 ticks",
    "9 as it has 4294967295 ticks",
    "9 though a capacity is below the minimum",
];

/// The numbers and outcomes that the recording run is answered with, and what is behind them.
#[derive(Default)]
pub struct RecordingRuns {
    numbers: Tally,
    kinds: Tally<&'static str>,
    ran: Tally,
    lost: Tally,
    full: Tally,
    lacking: Tally,
    clean: Tally<&'static str>,
    ended: Tally<&'static str>,
    refused: Tally<&'static str>,
}

impl RecordingRuns {
    /// Counts the answer that a run must have.
    pub fn count(&mut self, Request { chain, ticks }: &Request, answer: &Recording) {
        self.numbers.count(answer.number);
        match answer.number {
            0 => {
                self.ran.count(chain.n);
                self.kinds.count(kind_name(answer.kind));
                for loss in entries(&answer.losses) {
                    self.lost.count(loss.queue);
                }
                match answer.kind {
                    CLEAN => self.count_clean(chain, *ticks, answer),
                    _ => self.count_ended(chain, *ticks, answer),
                }
            }
            9 => self.count_refused(chain, *ticks),
            _ => {}
        }
    }

    /// Counts a run that is clean.
    fn count_clean(&mut self, chain: &Chain, ticks: u32, answer: &Recording) {
        let n = chain.n as usize;
        let run = &answer.run;
        let losses = entries(&answer.losses);
        let none = losses.is_empty();
        let lost_at = |tick: u32| losses.iter().any(|loss| loss.tick == tick);
        let full_at_end = !fits(&chain.queues[0], run.held[0]);
        let behind = |loss: &Loss| {
            let behind = loss.queue as usize + 1;
            behind < n && run.counts[behind] > 0
        };
        let marks = [
            ticks == 0,
            ticks == 1,
            none,
            none && chain.queues[..n].iter().any(tight),
            ticks == MAX_TICKS && none,
            ticks == MAX_TICKS && !none,
            losses.len() == MAX_LOSSES,
            ticks > 0 && lost_at(ticks),
            ticks > 0 && lost_at(ticks - 1),
            full_at_end && ticks.is_multiple_of(chain.period),
            losses.iter().any(|loss| loss.queue != losses[0].queue),
            twice_at_once(&answer.losses),
            deadline_run(chain, ticks).kind == OVERFLOWED,
            losses.iter().any(behind),
        ];
        count_all(&mut self.clean, CLEAN_RUNS, marks);
    }

    /// Counts a run that finds the list full or lacks a deadline.
    fn count_ended(&mut self, chain: &Chain, ticks: u32, answer: &Recording) {
        let lacks = answer.kind == NO_DEADLINE;
        let full = answer.kind == LIST_FULL;
        let [at_source, at_finish] = [answer.at == 0, answer.at > 0].map(|at| full && at);
        let fires = answer.tick.is_multiple_of(chain.period);
        let loses = fires && !fits(&chain.queues[0], answer.run.held[0]);
        match lacks {
            true => self.lacking.count(answer.at),
            false => self.full.count(answer.at),
        }
        let marks = [
            at_source && ticks == answer.tick + 1,
            at_source && ticks > answer.tick + 1,
            at_finish && ticks == answer.tick,
            at_finish && ticks > answer.tick,
            lacks && answer.losses.count == 0,
            lacks && answer.losses.count > 0,
            lacks && loses,
        ];
        count_all(&mut self.ended, ENDED, marks);
    }

    /// Counts a run that is refused with 9.
    fn count_refused(&mut self, chain: &Chain, ticks: u32) {
        let marks = [
            ticks == MAX_TICKS + 1,
            ticks == u32::MAX,
            chain.queues[..chain.n as usize].iter().any(tight),
        ];
        count_all(&mut self.refused, REFUSED_RUNS, marks);
    }

    /// What was seen, and what was not though it must be. In a run within the limit no index of N_1
    /// comes near its own.
    pub fn lines(&self) -> Vec<Line> {
        let (queues, nodes) = (0..MAX_QUEUES as u32, 1..=MAX_QUEUES as u32);
        vec![
            self.numbers.line("recording run", [0, 2, 4, 5, 6, 7, 9]),
            self.kinds.line("recording run, outcome", kind_names()),
            self.ran.line("recording run, n of those run", nodes),
            self.lost
                .line("recording run, queue that loses", queues.clone()),
            self.full.line("recording run, list full, queue", queues),
            self.lacking
                .line("recording run, no deadline, node", 2..=MAX_QUEUES as u32),
            self.clean.line("recording run, clean", CLEAN_RUNS),
            self.ended.line("recording run, ended", ENDED),
            self.refused.line("recording run, 9", REFUSED_RUNS),
        ]
    }
}
