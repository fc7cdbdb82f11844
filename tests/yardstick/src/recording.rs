//! The recording tick and the recording run, which carry on past a full queue and note each loss,
//! with check 17 of the list of losses.

use crate::analysis::Analysis;
use crate::chain::{Chain, Refusal, MAX_QUEUES};
use crate::deadline::due;
use crate::deadline_run::{check_ticks, each_tick};
use crate::run::{accepted, check_queues, take_effect, Run};
use crate::tick::{check_length, chosen, Outcome, OutcomeAnswer, NO_DEADLINE};

/// The most entries of a list of losses.
pub const MAX_LOSSES: usize = 256;

/// The kind of outcome that only recording calls have.
pub const LIST_FULL: u32 = 3;

/// One production that was dropped whole.
#[repr(C)]
#[derive(Clone, Copy, Debug, Default, PartialEq, Eq)]
pub struct Loss {
    pub tick: u32,
    pub queue: u32,
    pub tokens: u32,
}

/// The losses so far; the slots from `count` on are no entries.
#[repr(C)]
#[derive(Clone, Copy, Debug, PartialEq, Eq)]
pub struct Losses {
    pub count: u32,
    pub entries: [Loss; MAX_LOSSES],
}

/// An outcome with the state and the list it left, or the number and place of a refusal beside those
/// handed in, or beside zeros if none were.
#[repr(C)]
#[derive(Clone, Copy, Debug, Default, PartialEq, Eq)]
pub struct Recording {
    pub number: u32,
    pub place: u32,
    pub kind: u32,
    pub tick: u32,
    pub at: u32,
    pub run: Run,
    pub losses: Losses,
}

/// What became of a firing's production.
#[derive(Clone, Copy, PartialEq, Eq)]
enum Production {
    Put,
    Dropped,
}

impl Default for Losses {
    /// No losses.
    fn default() -> Self {
        Losses {
            count: 0,
            entries: [Loss::default(); MAX_LOSSES],
        }
    }
}

impl Losses {
    /// Whether there is no slot for one more.
    fn is_full(&self) -> bool {
        self.count as usize >= MAX_LOSSES
    }

    /// Notes one more, for which there must be a slot.
    fn note(&mut self, loss: Loss) {
        self.entries[self.count as usize] = loss;
        self.count += 1;
    }

    /// The tokens that each queue has lost; every entry must name one of the 16.
    fn sums(&self) -> [u64; MAX_QUEUES] {
        let mut sums = [0; MAX_QUEUES];
        for entry in &self.entries[..self.count as usize] {
            sums[entry.queue as usize] += u64::from(entry.tokens);
        }
        sums
    }
}

impl Recording {
    /// The answer of a call, with the state and the list beside it.
    fn new(made: Result<Outcome, Refusal>, run: Run, losses: Losses) -> Self {
        let OutcomeAnswer {
            number,
            place,
            kind,
            tick,
            at,
        } = OutcomeAnswer::from(made);
        Recording {
            number,
            place,
            kind,
            tick,
            at,
            run,
            losses,
        }
    }
}

/// The outcome of one recording tick, and the state and the list after it, after checks 2, 4, 5, 6,
/// 7, 17 and 9.
pub fn recording_tick(chain: &Chain, mut run: Run, losses: &Losses) -> Recording {
    let mut losses = *losses;
    let made = ticked(chain, &mut run, &mut losses);
    Recording::new(made, run, losses)
}

/// The outcome of one recording tick that is made of the state and the list lent, after the same
/// checks.
pub fn recording_tick_lent(chain: &Chain, run: &mut Run, losses: &mut Losses) -> OutcomeAnswer {
    OutcomeAnswer::from(ticked(chain, run, losses))
}

/// The outcome of a recording run of so many ticks from a fresh start, and the state and the list it
/// left, after checks 2, 4, 5, 6, 7 and 9.
pub fn recording_run(chain: &Chain, ticks: u32) -> Recording {
    let (mut run, mut losses) = (Run::default(), Losses::default());
    let made = ran(chain, ticks, &mut run, &mut losses);
    Recording::new(made, run, losses)
}

/// The checks in order, then one tick of a state and a list.
#[inline(always)]
fn ticked(chain: &Chain, run: &mut Run, losses: &mut Losses) -> Result<Outcome, Refusal> {
    let analysis = accepted(chain)?;
    check_list(chain, losses)?;
    let lost = losses.sums();
    check_queues(chain, &analysis, run, |i| lost[i])?;
    check_length(chain, run)?;
    let source_fires = run.clock.is_multiple_of(chain.period);
    let due = |node, fired| due(chain, &analysis, node, fired).ok();
    let stepped = step(chain, &analysis, run, losses, source_fires, due);
    Ok(stepped.err().unwrap_or_default())
}

/// The checks in order, then the ticks one by one from a fresh start and an empty list.
fn ran(chain: &Chain, ticks: u32, run: &mut Run, losses: &mut Losses) -> Result<Outcome, Refusal> {
    let analysis = accepted(chain)?;
    check_ticks(ticks)?;
    let outcome = each_tick(chain, &analysis, ticks, run, |run, source_fires, dues| {
        let due = |node: usize, _| dues[node];
        step(chain, &analysis, run, losses, source_fires, due)
    });
    Ok(outcome)
}

/// Check 17 of the list: its length, then the queue that each entry names.
fn check_list(chain: &Chain, losses: &Losses) -> Result<(), Refusal> {
    let entries = losses.entries.get(..losses.count as usize);
    let named = |entries: &[Loss]| entries.iter().all(|entry| entry.queue < chain.n);
    if entries.is_some_and(named) {
        return Ok(());
    }
    Err(Refusal {
        number: 17,
        place: 0,
    })
}

/// One recording tick: the source's step, a tick of work, the clock, the effect of a firing then
/// finished. `due` gives the deadline of a node's next firing from the node and how often it has
/// fired. The source's loss is noted when it is known that every deadline can be had. The answer is
/// the node whose firing took effect, if one did, or how the run ends at this tick.
#[inline(always)]
fn step(
    chain: &Chain,
    analysis: &Analysis,
    run: &mut Run,
    losses: &mut Losses,
    source_fires: bool,
    due: impl Fn(usize, u32) -> Option<u64>,
) -> Result<Option<usize>, Outcome> {
    let sourced = match source_fires {
        true => Some(fire(chain, analysis, run, losses, 0)?),
        false => None,
    };
    let chosen = chosen(chain, run, due).map_err(|node| {
        take_back(chain, run, sourced);
        Outcome {
            kind: NO_DEADLINE,
            tick: run.clock,
            at: node as u32,
        }
    })?;
    note(chain, run.clock, losses, 0, sourced);
    run.clock += 1;
    match chosen {
        Some(node) => work(chain, analysis, run, losses, node),
        None => Ok(None),
    }
}

/// A tick of work of an over-threshold node, and the effect of its firing if that is then finished.
/// The answer is the node if its firing took effect.
#[inline(always)]
fn work(
    chain: &Chain,
    analysis: &Analysis,
    run: &mut Run,
    losses: &mut Losses,
    node: usize,
) -> Result<Option<usize>, Outcome> {
    run.done[node - 1] += 1;
    if run.done[node - 1] < chain.work[node - 1] {
        return Ok(None);
    }
    let production = fire(chain, analysis, run, losses, node)?;
    run.done[node - 1] = 0;
    note(chain, run.clock, losses, node, Some(production));
    Ok(Some(node))
}

/// Fires a node, whose production is dropped if the queue after it has no room. The error is a list
/// with no slot for that; no entry is made yet.
#[inline(always)]
fn fire(
    chain: &Chain,
    analysis: &Analysis,
    run: &mut Run,
    losses: &Losses,
    node: usize,
) -> Result<Production, Outcome> {
    let fits = node == chain.n as usize
        || run.held[node] + chain.queues[node].produce <= analysis.queues[node].capacity;
    if fits {
        take_effect(chain, run, node);
        return Ok(Production::Put);
    }
    if losses.is_full() {
        return Err(Outcome {
            kind: LIST_FULL,
            tick: run.clock,
            at: node as u32,
        });
    }
    run.counts[node] += 1;
    if node > 0 {
        run.held[node - 1] -= chain.queues[node - 1].consume;
    }
    Ok(Production::Dropped)
}

/// Notes a node's production if it was dropped.
#[inline(always)]
fn note(
    chain: &Chain,
    tick: u32,
    losses: &mut Losses,
    node: usize,
    production: Option<Production>,
) {
    if production == Some(Production::Dropped) {
        losses.note(Loss {
            tick,
            queue: node as u32,
            tokens: chain.queues[node].produce,
        });
    }
}

/// Takes back the source's last firing, if there was one.
fn take_back(chain: &Chain, run: &mut Run, sourced: Option<Production>) {
    if sourced.is_some() {
        run.counts[0] -= 1;
    }
    if sourced == Some(Production::Put) {
        run.held[0] -= chain.queues[0].produce;
    }
}
