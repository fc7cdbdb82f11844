//! One tick of a deadline run, with checks 17 and 9.

use crate::analysis::Analysis;
use crate::chain::{Chain, Refusal};
use crate::deadline::due;
use crate::run::{check_state, runnable, take_effect, Run};

/// The most ticks of a run.
pub const MAX_TICKS: u32 = 1_000_000;

/// The kinds of outcome.
pub const CLEAN: u32 = 0;
pub const OVERFLOWED: u32 = 1;
pub const NO_DEADLINE: u32 = 2;

/// An outcome and the state it left, or the number and place of a refusal beside the state handed
/// in, or beside a zero state if none was.
#[repr(C)]
#[derive(Clone, Copy, Debug, Default, PartialEq, Eq)]
pub struct OutcomeRun {
    pub number: u32,
    pub place: u32,
    pub kind: u32,
    pub tick: u32,
    pub at: u32,
    pub run: Run,
}

/// An outcome, or the number and place of a refusal.
#[repr(C)]
#[derive(Clone, Copy, Debug, Default, PartialEq, Eq)]
pub struct OutcomeAnswer {
    pub number: u32,
    pub place: u32,
    pub kind: u32,
    pub tick: u32,
    pub at: u32,
}

impl From<Result<Outcome, Refusal>> for OutcomeAnswer {
    /// The answer of a call whose state is lent.
    fn from(made: Result<Outcome, Refusal>) -> Self {
        match made {
            Ok(Outcome { kind, tick, at }) => OutcomeAnswer {
                number: 0,
                place: 0,
                kind,
                tick,
                at,
            },
            Err(Refusal { number, place }) => OutcomeAnswer {
                number,
                place,
                ..OutcomeAnswer::default()
            },
        }
    }
}

/// How a tick or a run ended: clean, or at a tick with the queue that would have overflowed or the
/// node whose deadline can't be had.
#[derive(Clone, Copy, Default)]
pub(crate) struct Outcome {
    pub kind: u32,
    pub tick: u32,
    pub at: u32,
}

impl OutcomeRun {
    /// The answer of a call that was not refused.
    pub(crate) fn ended(Outcome { kind, tick, at }: Outcome, run: Run) -> Self {
        OutcomeRun {
            number: 0,
            place: 0,
            kind,
            tick,
            at,
            run,
        }
    }

    /// The answer of a call that was refused, with the state beside it.
    pub(crate) fn refused(Refusal { number, place }: Refusal, run: Run) -> Self {
        OutcomeRun {
            number,
            place,
            run,
            ..OutcomeRun::default()
        }
    }
}

/// The outcome of one tick and the state after it, after checks 2, 4, 5, 6, 7, 8, 17 and 9.
pub fn tick(chain: &Chain, mut run: Run) -> OutcomeRun {
    match ticked(chain, &mut run) {
        Ok(outcome) => OutcomeRun::ended(outcome, run),
        Err(refusal) => OutcomeRun::refused(refusal, run),
    }
}

/// The outcome of one tick that is made of the state lent, after the same checks.
pub fn tick_lent(chain: &Chain, run: &mut Run) -> OutcomeAnswer {
    OutcomeAnswer::from(ticked(chain, run))
}

/// The checks in order, then one tick of a state.
#[inline(always)]
fn ticked(chain: &Chain, run: &mut Run) -> Result<Outcome, Refusal> {
    let analysis = checked_tick(chain, run)?;
    let source_fires = run.clock.is_multiple_of(chain.period);
    let due = |node, fired| due(chain, &analysis, node, fired).ok();
    let stepped = step(chain, &analysis, run, source_fires, due);
    Ok(stepped.err().unwrap_or_default())
}

/// All checks of a tick in order. The answer is the analysis.
fn checked_tick(chain: &Chain, run: &Run) -> Result<Analysis, Refusal> {
    let analysis = runnable(chain)?;
    check_state(chain, &analysis, run)?;
    check_length(chain, run)?;
    Ok(analysis)
}

/// Check 9: a clock that may go on, then a count of every node that may.
pub(crate) fn check_length(chain: &Chain, run: &Run) -> Result<(), Refusal> {
    let refusal = |place| {
        Err(Refusal {
            number: 9,
            place: place as u32,
        })
    };
    if run.clock >= MAX_TICKS {
        return refusal(0);
    }
    let counts = &run.counts[..=chain.n as usize];
    match counts.iter().position(|&count| count == u32::MAX) {
        Some(node) => refusal(node),
        None => Ok(()),
    }
}

/// One tick: the source's step, a tick of work, the clock, the effect of a firing then finished.
/// `due` gives the deadline of a node's next firing from the node and how often it has fired. The
/// answer is the node whose firing took effect, if one did, or how the run ends at this tick.
#[inline(always)]
pub(crate) fn step(
    chain: &Chain,
    analysis: &Analysis,
    run: &mut Run,
    source_fires: bool,
    due: impl Fn(usize, u32) -> Option<u64>,
) -> Result<Option<usize>, Outcome> {
    if source_fires {
        fire(chain, analysis, run, 0)?;
    }
    let chosen = chosen(chain, run, due).map_err(|node| {
        if source_fires {
            take_back(chain, run);
        }
        Outcome {
            kind: NO_DEADLINE,
            tick: run.clock,
            at: node as u32,
        }
    })?;
    run.clock += 1;
    match chosen {
        Some(node) => work(chain, analysis, run, node),
        None => Ok(None),
    }
}

/// The over-threshold node whose next firing is due first, of several the one nearest the sink; none
/// if no node is over threshold. The error is the lowest over-threshold node without a deadline.
#[inline(always)]
pub(crate) fn chosen(
    chain: &Chain,
    run: &Run,
    due: impl Fn(usize, u32) -> Option<u64>,
) -> Result<Option<usize>, usize> {
    let mut chosen = None;
    let mut earliest = u64::MAX;
    let queues = &chain.queues[..chain.n as usize];
    for (i, (queue, &held)) in queues.iter().zip(&run.held).enumerate() {
        if held < queue.threshold {
            continue;
        }
        let node = i + 1;
        let due = due(node, run.counts[node]).ok_or(node)?;
        if due <= earliest {
            (chosen, earliest) = (Some(node), due);
        }
    }
    Ok(chosen)
}

/// A tick of work of an over-threshold node, and the effect of its firing if that is then finished.
/// The answer is the node if its firing took effect.
#[inline(always)]
fn work(
    chain: &Chain,
    analysis: &Analysis,
    run: &mut Run,
    node: usize,
) -> Result<Option<usize>, Outcome> {
    run.done[node - 1] += 1;
    if run.done[node - 1] < chain.work[node - 1] {
        return Ok(None);
    }
    fire(chain, analysis, run, node)?;
    run.done[node - 1] = 0;
    Ok(Some(node))
}

/// Fires a node, unless the queue after it would overflow.
#[inline(always)]
fn fire(chain: &Chain, analysis: &Analysis, run: &mut Run, node: usize) -> Result<(), Outcome> {
    let overflows = node < chain.n as usize
        && run.held[node] + chain.queues[node].produce > analysis.queues[node].capacity;
    if overflows {
        return Err(Outcome {
            kind: OVERFLOWED,
            tick: run.clock,
            at: node as u32,
        });
    }
    take_effect(chain, run, node);
    Ok(())
}

/// Takes back the source's last firing.
fn take_back(chain: &Chain, run: &mut Run) {
    run.counts[0] -= 1;
    run.held[0] -= chain.queues[0].produce;
}
