//! What the states and lists on which one recording tick was compared have shown.

use crate::due::waiting;
use crate::lists::{entries, sums};
use crate::recordings::RecordingTick;
use crate::run_sights::Reasons;
use crate::sights::count_all;
use crate::tally::{Line, Tally};
use compare::rates::{capacity, minimum};
use yardstick::{
    analyse, Chain, Loss, Losses, Queue, Recording, Run, CLEAN, LIST_FULL, MAX_LOSSES, MAX_QUEUES,
    MAX_TICKS, NO_DEADLINE,
};

/// The names of the kinds of outcome that a recording call may have.
const KINDS: [&str; 3] = ["clean", "no deadline", "list full"];

/// The slots left from which on they are more than a tick may take.
const MANY_LEFT: u32 = 3;

/// What must be seen of recording ticks that are clean.
const CLEAN_TICKS: [&str; 17] = [
    "nothing lost",
    "nothing lost, capacity below the minimum",
    "nothing lost, the list full",
    "nothing lost, the list not empty",
    "the source loses",
    "a node loses",
    "both lose",
    "both lose, the last two slots",
    "one loses, the last slot",
    "lost by one token",
    "lost as produce is above the capacity",
    "lost as B is 0",
    "a node loses and the source does not fire",
    "the source loses and a node fires",
    "a slot past the entries names no queue",
    "entries have other tokens than produce",
    "256 entries of 4294967295 tokens",
];

/// What must be seen of recording ticks that end without a deadline or with a full list.
const ENDED: [&str; 9] = [
    "no deadline, the source's loss taken back",
    "no deadline, the source's production taken back",
    "no deadline, no step of the source",
    "no deadline, the list full",
    "list full at the source",
    "list full at the source while a node has no deadline",
    "list full at a finish, the source has lost in the last slot",
    "list full at a finish, the source has not lost",
    "list full at a finish, no step of the source",
];

/// What must be seen of recording ticks that are refused with 17 for their list.
const LISTS: [&str; 8] = [
    "257 entries",
    "4294967295 entries",
    "the first entry's queue",
    "the last entry's queue",
    "a queue that is n",
    "a queue that is 4294967295",
    "before a queue above 0",
    "before 9",
];

/// What must be seen of recording ticks that are refused with 17 for a queue.
const DAMAGED: [&str; 10] = [
    "one more is lost",
    "one less is lost",
    "it holds modulo 2^32",
    "it holds modulo 2^32, 256 entries of 4294967295 tokens",
    "it holds without the entries",
    "the capacity",
    "the work",
    "several queues",
    "before 9, clock",
    "before 9, count",
];

/// What must be seen of recording ticks that are refused with 9.
const TOO_LONG: [&str; 3] = ["clock is 1000000", "clock before count", "several counts"];

/// The numbers and outcomes that a recording tick is answered with, and what is behind them.
#[derive(Default)]
pub struct RecordingTicks {
    numbers: Tally,
    kinds: Tally<&'static str>,
    ticked: Tally,
    lost: Tally,
    full: Tally,
    lacking: Tally,
    damaged: Tally,
    last_counts: Tally,
    left: Tally,
    clean: Tally<&'static str>,
    ended: Tally<&'static str>,
    lists: Tally<&'static str>,
    queues: Tally<&'static str>,
    too_long: Tally<&'static str>,
}

/// The name of a recording outcome's kind.
pub fn kind_name(kind: u32) -> &'static str {
    match kind {
        CLEAN => KINDS[0],
        NO_DEADLINE => KINDS[1],
        LIST_FULL => KINDS[2],
        _ => "no such kind",
    }
}

/// All kinds of outcome of a recording call by their names.
pub fn kind_names() -> [&'static str; 3] {
    KINDS
}

impl RecordingTicks {
    /// Counts the answer that a recording tick must have.
    pub fn count(&mut self, tick: &RecordingTick, answer: &Recording) {
        self.numbers.count(answer.number);
        match answer.number {
            0 => {
                self.ticked.count(tick.chain.n);
                let left = MAX_LOSSES as u32 - tick.losses.count;
                self.left.count(left.min(MANY_LEFT));
                self.kinds.count(kind_name(answer.kind));
                match answer.kind {
                    CLEAN => self.count_clean(tick, answer),
                    _ => self.count_ended(tick, answer),
                }
            }
            17 if list_is_damaged(tick) => self.count_list(tick),
            17 => self.count_queues(tick, answer),
            9 => self.count_too_long(tick, answer),
            _ => {}
        }
    }

    /// Counts a tick that is clean.
    fn count_clean(&mut self, tick: &RecordingTick, answer: &Recording) {
        let RecordingTick { chain, run, losses } = tick;
        let before = losses.count as usize;
        let new = &answer.losses.entries[before..answer.losses.count as usize];
        let left = MAX_LOSSES - answer.losses.count as usize;
        let none = new.is_empty();
        let [by_source, by_node] =
            [true, false].map(|source| new.iter().any(|loss| (loss.queue == 0) == source));
        let fired = |node: usize| answer.run.counts[node] != run.counts[node];
        let queue = |loss: &Loss| &chain.queues[loss.queue as usize];
        let free = |loss: &Loss| capacity(queue(loss)) - run.held[loss.queue as usize];
        let other = |loss: &Loss| loss.tokens != queue(loss).produce;
        let n = chain.n as usize;
        let marks = [
            none,
            none && chain.queues[..n].iter().any(tight),
            none && left == 0,
            none && before > 0,
            by_source,
            by_node,
            new.len() == 2,
            new.len() == 2 && left == 0,
            new.len() == 1 && left == 0,
            new.iter().any(|loss| loss.tokens == free(loss) + 1),
            new.iter().any(|loss| loss.tokens > capacity(queue(loss))),
            new.iter().any(|loss| queue(loss).capacity == 0),
            by_node && !fired(0),
            by_source && (1..=n).any(fired),
            losses.entries[before..]
                .iter()
                .any(|slot| slot.queue >= chain.n),
            entries(losses).iter().any(other),
            is_wide(losses),
        ];
        count_all(&mut self.clean, CLEAN_TICKS, marks);
        new.iter().for_each(|loss| self.lost.count(loss.queue));
    }

    /// Counts a tick that has no deadline or finds the list full.
    fn count_ended(
        &mut self,
        RecordingTick { chain, run, losses }: &RecordingTick,
        answer: &Recording,
    ) {
        let lacks = answer.kind == NO_DEADLINE;
        let full = answer.kind == LIST_FULL;
        let fires = run.clock.is_multiple_of(chain.period);
        let loses = fires && !fits(&chain.queues[0], run.held[0]);
        let lacking = |(_, due): &(usize, Option<u128>)| due.is_none();
        let at_finish = full && answer.at > 0;
        match lacks {
            true => self.lacking.count(answer.at),
            false => self.full.count(answer.at),
        }
        let marks = [
            lacks && loses,
            lacks && fires && !loses,
            lacks && !fires,
            lacks && losses.count as usize == MAX_LOSSES,
            full && answer.at == 0,
            full && answer.at == 0 && waiting(chain, run).iter().any(lacking),
            at_finish && loses,
            at_finish && fires && !loses,
            at_finish && !fires,
        ];
        count_all(&mut self.ended, ENDED, marks);
    }

    /// Counts a tick whose list is refused with 17.
    fn count_list(&mut self, RecordingTick { chain, run, losses }: &RecordingTick) {
        let long = losses.count as usize > MAX_LOSSES;
        let entries = entries(losses);
        let stray = |at: Option<&Loss>| !long && at.is_some_and(|loss| loss.queue >= chain.n);
        let names = |queue| stray(entries.iter().find(|loss| loss.queue == queue));
        let reasons = reasons(chain, run, losses);
        let lowest = reasons.iter().position(|reasons| reasons.count() > 0);
        let (late, last) = lateness(chain, run);
        let marks = [
            losses.count as usize == MAX_LOSSES + 1,
            losses.count == u32::MAX,
            stray(entries.first()),
            stray(entries.last()),
            names(chain.n),
            names(u32::MAX),
            lowest.is_some_and(|queue| queue > 0),
            late || last > 0,
        ];
        count_all(&mut self.lists, LISTS, marks);
    }

    /// Counts a tick that is refused with 17 for a queue, beside a sound list.
    fn count_queues(&mut self, tick: &RecordingTick, answer: &Recording) {
        let RecordingTick { chain, run, losses } = tick;
        self.damaged.count(answer.place);
        let reasons = reasons(chain, run, losses);
        let damaged = reasons.iter().filter(|reasons| reasons.count() > 0).count();
        let at = answer.place as usize;
        let alone = Some(reasons[at]).filter(|at| at.count() == 1 && damaged == 1);
        let off = alone.map_or(0, |at| at.off);
        let by_words = off != 0 && off % (1 << 32) == 0;
        let (late, last) = lateness(chain, run);
        let marks = [
            off == 1,
            off == -1,
            by_words,
            by_words && is_wide(losses),
            off > 0 && off as u64 == sums(losses)[at],
            alone.is_some_and(|at| at.over),
            alone.is_some_and(|at| at.late),
            damaged > 1,
            late,
            last > 0,
        ];
        count_all(&mut self.queues, DAMAGED, marks);
    }

    /// Counts a tick that is refused with 9.
    fn count_too_long(
        &mut self,
        RecordingTick { chain, run, .. }: &RecordingTick,
        answer: &Recording,
    ) {
        let (late, last) = lateness(chain, run);
        if !late {
            self.last_counts.count(answer.place);
        }
        let marks = [run.clock == MAX_TICKS, late && last > 0, !late && last > 1];
        count_all(&mut self.too_long, TOO_LONG, marks);
    }

    /// What was seen, and what was not though it must be.
    pub fn lines(&self) -> Vec<Line> {
        let (queues, nodes) = (0..MAX_QUEUES as u32, 1..=MAX_QUEUES as u32);
        vec![
            self.numbers
                .line("recording tick", [0, 2, 4, 5, 6, 7, 9, 17]),
            self.kinds.line("recording tick, outcome", kind_names()),
            self.ticked
                .line("recording tick, n of those not refused", nodes.clone()),
            self.lost
                .line("recording tick, queue that loses", queues.clone()),
            self.full
                .line("recording tick, list full, queue", queues.clone()),
            self.lacking
                .line("recording tick, no deadline, node", nodes),
            self.damaged.line("recording tick, 17, queue", queues),
            self.last_counts.line(
                "recording tick, 9 as a count is the last, node",
                0..=MAX_QUEUES as u32,
            ),
            self.left
                .line("recording tick, slots left, 3 for more", 0..=MANY_LEFT),
            self.clean.line("recording tick, clean", CLEAN_TICKS),
            self.ended.line("recording tick, ended", ENDED),
            self.lists.line("recording tick, 17 for the list", LISTS),
            self.queues.line("recording tick, 17 for a queue", DAMAGED),
            self.too_long.line("recording tick, 9", TOO_LONG),
        ]
    }
}

/// Whether the list of a tick is refused with 17.
fn list_is_damaged(RecordingTick { chain, losses, .. }: &RecordingTick) -> bool {
    let stray = |loss: &Loss| loss.queue >= chain.n;
    losses.count as usize > MAX_LOSSES || entries(losses).iter().any(stray)
}

/// Whether a state's clock is past the limit, and how many of its counts are the last.
fn lateness(chain: &Chain, run: &Run) -> (bool, usize) {
    let counts = run.counts[..=chain.n as usize].iter();
    let last = counts.filter(|&&count| count == u32::MAX).count();
    (run.clock >= MAX_TICKS, last)
}

/// Why each queue of an accepted chain is refused with 17: what is held and lost is more than was put
/// in and not taken out, by how much.
fn reasons(chain: &Chain, run: &Run, losses: &Losses) -> Vec<Reasons> {
    let sizes = &analyse(chain).analysis.queues[..chain.n as usize];
    let mut reasons = Reasons::of(chain, sizes, run);
    for (reasons, lost) in reasons.iter_mut().zip(sums(losses)) {
        reasons.off += lost as i64;
    }
    reasons
}

/// Whether a list is full of entries with as many tokens as can be.
fn is_wide(losses: &Losses) -> bool {
    let all = entries(losses).iter().all(|loss| loss.tokens == u32::MAX);
    losses.count as usize == MAX_LOSSES && all
}

/// Whether a queue's capacity is below its minimum.
pub fn tight(queue: &Queue) -> bool {
    capacity(queue) < minimum(queue)
}

/// Whether a queue that holds so much has room for a production.
pub fn fits(queue: &Queue, held: u32) -> bool {
    held + queue.produce <= capacity(queue)
}
