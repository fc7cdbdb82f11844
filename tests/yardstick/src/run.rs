//! The run state: a fresh start and manual firing, with checks 17, 9, 11 and 12; and check 8, which
//! is that of every other call that runs a chain.

use crate::analysis::{analysed, Analysis};
use crate::chain::{checked_record, Chain, Refusal, MAX_QUEUES};

/// How far a run is. `counts[i]` is how often N_i has fired, `held[i]` what queue i holds, `done[i]`
/// the ticks that N_(i+1) has worked on its current firing.
#[repr(C)]
#[derive(Clone, Copy, Debug, Default, PartialEq, Eq)]
pub struct Run {
    pub clock: u32,
    pub counts: [u32; MAX_QUEUES + 1],
    pub held: [u32; MAX_QUEUES],
    pub done: [u32; MAX_QUEUES],
}

/// A run state, or the number and place of a refusal beside the state handed in, or beside a zero
/// state if none was.
#[repr(C)]
#[derive(Clone, Copy, Debug, Default, PartialEq, Eq)]
pub struct RunAnswer {
    pub number: u32,
    pub place: u32,
    pub run: Run,
}

impl From<Result<Run, Refusal>> for RunAnswer {
    /// The answer of a call that makes a state of its own, or that was refused.
    fn from(made: Result<Run, Refusal>) -> Self {
        match made {
            Ok(run) => RunAnswer {
                number: 0,
                place: 0,
                run,
            },
            Err(refusal) => refused(refusal, Run::default()),
        }
    }
}

/// The answer of a call that was refused, with the state beside it.
fn refused(Refusal { number, place }: Refusal, run: Run) -> RunAnswer {
    RunAnswer { number, place, run }
}

/// The state of a fresh start, after checks 2, 4, 5, 6 and 7.
pub fn fresh(chain: &Chain) -> RunAnswer {
    RunAnswer::from(accepted(chain).map(|_| Run::default()))
}

/// The state after a firing of one node, after checks 2, 4, 5, 6, 7, 17, 9, 11 and 12.
pub fn fire(chain: &Chain, mut run: Run, node: u32) -> RunAnswer {
    match checked_firing(chain, &run, node) {
        Ok(node) => {
            take_effect(chain, &mut run, node);
            RunAnswer::from(Ok(run))
        }
        Err(refusal) => refused(refusal, run),
    }
}

/// The analysis of a chain that is accepted: checks 2, 4, 5, 6 and 7.
pub(crate) fn accepted(chain: &Chain) -> Result<Analysis, Refusal> {
    checked_record(chain)?;
    analysed(chain)
}

/// The analysis of an accepted chain that check 8 lets pass too: no capacity is below its minimum.
pub(crate) fn runnable(chain: &Chain) -> Result<Analysis, Refusal> {
    let analysis = accepted(chain)?;
    let mut queues = analysis.queues[..chain.n as usize].iter();
    match queues.position(|queue| queue.margin < 0) {
        Some(i) => Err(Refusal {
            number: 8,
            place: i as u32,
        }),
        None => Ok(analysis),
    }
}

/// All checks of a firing in order. The answer is the node.
fn checked_firing(chain: &Chain, run: &Run, node: u32) -> Result<usize, Refusal> {
    let analysis = accepted(chain)?;
    check_state(chain, &analysis, run)?;
    check_node(chain, &analysis, run, node)?;
    Ok(node as usize)
}

/// Check 17 of a state without losses.
pub(crate) fn check_state(chain: &Chain, analysis: &Analysis, run: &Run) -> Result<(), Refusal> {
    check_queues(chain, analysis, run, |_| 0)
}

/// Check 17 of the queues: each one's balance with what it has lost, its capacity, and the work done
/// by the node it feeds.
#[inline(always)]
pub(crate) fn check_queues(
    chain: &Chain,
    analysis: &Analysis,
    run: &Run,
    lost: impl Fn(usize) -> u64,
) -> Result<(), Refusal> {
    let sound = |i: usize| {
        let queue = &chain.queues[i];
        let put = u64::from(queue.produce) * u64::from(run.counts[i]);
        let taken = u64::from(queue.consume) * u64::from(run.counts[i + 1]);
        put == u64::from(run.held[i]) + taken + lost(i)
            && run.held[i] <= analysis.queues[i].capacity
            && run.done[i] < chain.work[i]
    };
    match (0..chain.n as usize).find(|&i| !sound(i)) {
        Some(i) => Err(Refusal {
            number: 17,
            place: i as u32,
        }),
        None => Ok(()),
    }
}

/// Checks 9, 11 and 12 of a node and a state that passes 17. A node that there is not has no count.
fn check_node(chain: &Chain, analysis: &Analysis, run: &Run, node: u32) -> Result<(), Refusal> {
    let refusal = |number| {
        Err(Refusal {
            number,
            place: node,
        })
    };
    if node > chain.n {
        return refusal(11);
    }
    let i = node as usize;
    if run.counts[i] == u32::MAX {
        return refusal(9);
    }
    if i > 0 && run.held[i - 1] < chain.queues[i - 1].threshold {
        return refusal(11);
    }
    if node < chain.n && run.held[i] + chain.queues[i].produce > analysis.queues[i].capacity {
        return refusal(12);
    }
    Ok(())
}

/// What a firing of a node does: its production is put into the queue after it, if there is one,
/// then what it consumes is taken from the queue before it, if there is one.
#[inline]
pub(crate) fn take_effect(chain: &Chain, run: &mut Run, node: usize) {
    run.counts[node] += 1;
    if node < chain.n as usize {
        run.held[node] += chain.queues[node].produce;
    }
    if node > 0 {
        run.held[node - 1] -= chain.queues[node - 1].consume;
    }
}
