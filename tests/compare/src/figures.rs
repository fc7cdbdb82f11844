//! The paper's figures for deadlines, ticks and deadline runs, which library and yardstick must both
//! give.

use crate::comparison::{same_answer, Failure};
use crate::library::Library;
use yardstick::{
    factory, Chain, DeadlineAnswer, OutcomeRun, Queue, Run, RunAnswer, CLEAN, OVERFLOWED,
};

/// Compares every figure, and gives the name and the result of each.
pub fn all(library: &mut Library) -> Vec<(&'static str, Result<(), Failure>)> {
    vec![
        ("Feed's deadline runs", feed_runs(library)),
        ("Feed with an execution time of 7", slow_feed(library)),
        ("Permeate with too little room", tight_permeate(library)),
        ("the deadlines of document 000", radar(library)),
    ]
}

/// Compares a deadline run with what the paper says of it.
fn run_is(
    library: &mut Library,
    chain: &Chain,
    ticks: u32,
    due: &OutcomeRun,
) -> Result<(), Failure> {
    same_answer("the figure", &library.deadline_run(chain, ticks)?, due)?;
    same_answer(
        "the yardstick's",
        &yardstick::deadline_run(chain, ticks),
        due,
    )
}

/// Feed's state at a clock: the counts of source and sink, and what the queue holds.
fn feed_state(clock: u32, [source, sink, held]: [u32; 3]) -> Run {
    let mut run = Run {
        clock,
        ..Run::default()
    };
    run.counts[..2].copy_from_slice(&[source, sink]);
    run.held[0] = held;
    run
}

/// The answer of a clean run.
fn clean(run: Run) -> OutcomeRun {
    OutcomeRun {
        kind: CLEAN,
        run,
        ..OutcomeRun::default()
    }
}

/// Feed's runs of 0, 30 and 34 ticks.
fn feed_runs(library: &mut Library) -> Result<(), Failure> {
    let feed = factory(0).chain;
    run_is(library, &feed, 0, &clean(Run::default()))?;
    run_is(library, &feed, 30, &clean(feed_state(30, [3, 2, 6])))?;
    run_is(library, &feed, 34, &clean(feed_state(34, [4, 4, 4])))
}

/// Feed with an execution time of 7, whose load is 28 of 30: it overflows at tick 40, where a run of
/// 40 ticks is clean, and with a capacity of 12 it is clean to tick 90.
fn slow_feed(library: &mut Library) -> Result<(), Failure> {
    let mut chain = factory(0).chain;
    chain.work[0] = 7;
    let mut run = feed_state(40, [4, 3, 7]);
    run.done[0] = 3;
    let overflowed = OutcomeRun {
        kind: OVERFLOWED,
        tick: 40,
        ..clean(run)
    };
    run_is(library, &chain, 40, &clean(run))?;
    run_is(library, &chain, 41, &overflowed)?;
    run_is(library, &chain, 1_000_000, &overflowed)?;
    chain.queues[0].capacity = 12;
    for answer in [
        library.deadline_run(&chain, 90)?,
        yardstick::deadline_run(&chain, 90),
    ] {
        let outcome = [answer.number, answer.kind, answer.run.clock];
        if outcome != [0, CLEAN, 90] {
            return Err(Failure::Broken("a capacity of 12 is enough to tick 90"));
        }
    }
    Ok(())
}

/// Permeate with capacities of 12 and 5, which every call that runs it refuses with 8 at queue 1.
fn tight_permeate(library: &mut Library) -> Result<(), Failure> {
    let mut chain = factory(1).chain;
    chain.queues[0].capacity = 12;
    chain.queues[1].capacity = 5;
    let run = feed_state(7, [1, 0, 4]);
    let refused = OutcomeRun {
        number: 8,
        place: 1,
        ..OutcomeRun::default()
    };
    run_is(library, &chain, 34, &refused)?;
    let due = OutcomeRun { run, ..refused };
    same_answer("the tick's", &library.tick(&chain, &run)?, &due)?;
    same_answer("the yardstick's tick", &yardstick::tick(&chain, run), &due)?;
    let due = DeadlineAnswer {
        number: 8,
        place: 1,
        due: 0,
    };
    deadline_is(library, &chain, [1, 1], &due)?;
    let due = RunAnswer {
        number: 8,
        place: 1,
        run: Run::default(),
    };
    same_answer("the immediate run's", &library.immediate(&chain, 3)?, &due)?;
    same_answer(
        "the yardstick's immediate run",
        &yardstick::immediate(&chain, 3),
        &due,
    )
}

/// The radar chain of document 000: deadlines of the first and the second firing of three nodes.
fn radar(library: &mut Library) -> Result<(), Failure> {
    let rows = [
        [118, 118, 118],
        [256, 256, 256],
        [256, 256, 256],
        [256, 256, 256],
        [256, 32_768, 16_384],
        [32_768, 128, 128],
    ];
    let mut chain = Chain {
        n: rows.len() as u32,
        period: 1_000,
        ..Chain::default()
    };
    for (queue, [produce, threshold, consume]) in chain.queues.iter_mut().zip(rows) {
        *queue = Queue {
            produce,
            threshold,
            consume,
            ..Queue::default()
        };
    }
    chain.work[..rows.len()].fill(1);
    let figures = [
        (1, [1_000, 2_000]),
        (5, [132_000, 196_000]),
        (6, [196_000, 196_000]),
    ];
    for (node, both) in figures {
        for (index, due) in [1, 2].into_iter().zip(both) {
            let due = DeadlineAnswer {
                due,
                ..DeadlineAnswer::default()
            };
            deadline_is(library, &chain, [node, index], &due)?;
        }
    }
    Ok(())
}

/// Compares the deadline of a node's firing of an index with what the paper says of it.
fn deadline_is(
    library: &mut Library,
    chain: &Chain,
    [node, index]: [u32; 2],
    due: &DeadlineAnswer,
) -> Result<(), Failure> {
    let answer = library.deadline(chain, node, index)?;
    same_answer("the figure", &answer, due)?;
    let answer = yardstick::deadline(chain, node, index);
    same_answer("the yardstick's", &answer, due)
}
