//! The deadline run, with check 9.

use crate::analysis::Analysis;
use crate::chain::{Chain, Refusal, MAX_QUEUES};
use crate::deadline::due;
use crate::run::{runnable, Run};
use crate::tick::{step, Outcome, OutcomeRun, MAX_TICKS};

/// The deadlines of the next firings of nodes, each in the slot of its node; none if it can't be had.
pub(crate) type Dues = [Option<u64>; MAX_QUEUES + 1];

/// The outcome of a run of so many ticks from a fresh start and the state it left, after checks 2,
/// 4, 5, 6, 7, 8 and 9.
pub fn deadline_run(chain: &Chain, ticks: u32) -> OutcomeRun {
    let mut run = Run::default();
    match ran(chain, ticks, &mut run) {
        Ok(outcome) => OutcomeRun::ended(outcome, run),
        Err(refusal) => OutcomeRun::refused(refusal, run),
    }
}

/// The checks in order, then the ticks.
fn ran(chain: &Chain, ticks: u32, run: &mut Run) -> Result<Outcome, Refusal> {
    let analysis = runnable(chain)?;
    check_ticks(ticks)?;
    let outcome = each_tick(chain, &analysis, ticks, run, |run, source_fires, dues| {
        step(chain, &analysis, run, source_fires, |node, _| dues[node])
    });
    Ok(outcome)
}

/// Check 9 of a run: no more ticks than may be.
pub(crate) fn check_ticks(ticks: u32) -> Result<(), Refusal> {
    if ticks > MAX_TICKS {
        return Err(Refusal {
            number: 9,
            place: 0,
        });
    }
    Ok(())
}

/// The ticks one by one from a fresh start, each by a step that is told whether the source fires and
/// when the nodes are due, up to the first that ends the run. A node's deadline is kept until the
/// node fires, and so are the ticks until the source does.
#[inline(always)]
pub(crate) fn each_tick(
    chain: &Chain,
    analysis: &Analysis,
    ticks: u32,
    run: &mut Run,
    mut step: impl FnMut(&mut Run, bool, &Dues) -> Result<Option<usize>, Outcome>,
) -> Outcome {
    let next = |node, run: &Run| due(chain, analysis, node, run.counts[node]).ok();
    let mut kept = [None; MAX_QUEUES + 1];
    for node in 1..=chain.n as usize {
        kept[node] = next(node, run);
    }
    let mut until_source = 0;
    for _ in 0..ticks {
        let source_fires = until_source == 0;
        if source_fires {
            until_source = chain.period;
        }
        until_source -= 1;
        match step(run, source_fires, &kept) {
            Ok(Some(node)) => kept[node] = next(node, run),
            Ok(None) => {}
            Err(outcome) => return outcome,
        }
    }
    Outcome::default()
}
