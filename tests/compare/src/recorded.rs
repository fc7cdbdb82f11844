//! The comparison of the recording calls on one input: with the yardstick, with each other, with the
//! deadline run as long as nothing is lost, and what every answer must keep.

use crate::comparison::{same_answer, Failure};
use crate::library::Library;
use crate::lists::{entries, sums};
use crate::recording_run_sights::RecordingRuns;
use crate::recording_runs::Request;
use crate::recording_sights::RecordingTicks;
use crate::recordings::{RecordingTick, RecordingWalk};
use yardstick::{
    deadline_run, recording_run, recording_tick, Chain, Losses, OutcomeRun, Recording, Run, CLEAN,
    LIST_FULL, NO_DEADLINE, OVERFLOWED,
};

/// Compares one recording tick.
pub fn tick(
    library: &mut Library,
    seen: &mut RecordingTicks,
    tick: &RecordingTick,
) -> Result<(), Failure> {
    let RecordingTick { chain, run, losses } = tick;
    let answer = library.recording_tick(chain, run, losses)?;
    let due = recording_tick(chain, *run, losses);
    seen.count(tick, &due);
    same_answer("the answer", &answer, &due)?;
    kept(chain, losses, &answer)
}

/// Compares recording ticks that follow each other, and each that is asked again.
pub fn ticks(
    library: &mut Library,
    seen: &mut RecordingTicks,
    walk: &RecordingWalk,
) -> Result<(), Failure> {
    let RecordingWalk { start, ticks } = walk;
    let answers = library.recording_ticks(&start.chain, &start.run, &start.losses, *ticks)?;
    let mut tick = start.clone();
    let mut before: Option<&Recording> = None;
    for answer in &answers {
        let due = recording_tick(&tick.chain, tick.run, &tick.losses);
        seen.count(&tick, &due);
        same_answer("the answer of a recording tick", answer, &due)?;
        kept(&tick.chain, &tick.losses, answer)?;
        if let Some(before) = before.filter(|before| !goes_on(before)) {
            asked_again(before, answer)?;
        }
        (tick.run, tick.losses) = (answer.run, answer.losses);
        before = Some(answer);
    }
    Ok(())
}

/// Compares a recording run, with the deadline run too.
pub fn run(
    library: &mut Library,
    seen: &mut RecordingRuns,
    request: &Request,
) -> Result<(), Failure> {
    let Request { chain, ticks } = request;
    let answer = library.recording_run(chain, *ticks)?;
    let due = recording_run(chain, *ticks);
    seen.count(request, &due);
    same_answer("the answer", &answer, &due)?;
    kept(chain, &Losses::default(), &answer)?;
    beside_deadline_run(&library.deadline_run(chain, *ticks)?, &answer)
}

/// Compares a recording run with as many recording ticks from a fresh start and an empty list, up to
/// the first that is not clean.
pub fn ticked(library: &mut Library, request: &Request) -> Result<(), Failure> {
    let Request { chain, ticks } = request;
    let run = library.recording_run(chain, *ticks)?;
    let ticked = library.last_recording_tick(chain, u64::from(*ticks))?;
    same_answer("the answer of as many recording ticks", &ticked, &run)
}

/// Compares the recording runs of 0 ticks, of 1, and so on to so many with the yardstick's, with as
/// many recording ticks from a fresh start and an empty list, up to the first that is not clean, and
/// with the deadline runs.
pub fn each_length(library: &mut Library, chain: &Chain, most: u32) -> Result<(), Failure> {
    let runs = library.each_recording_length(chain, most)?;
    let (fresh, empty) = (Run::default(), Losses::default());
    let ticks = library.recording_ticks(chain, &fresh, &empty, u64::from(most))?;
    let mut ticked = Recording::default();
    for (length, run) in runs.iter().enumerate() {
        if goes_on(&ticked) && length > 0 {
            ticked = ticks[length - 1];
        }
        same_answer("the answer", run, &recording_run(chain, length as u32))?;
        same_answer("the answer of as many recording ticks", &ticked, run)?;
        kept(chain, &empty, run)?;
        beside_deadline_run(&deadline_run(chain, length as u32), run)?;
    }
    Ok(())
}

/// The chain that comes to a node without a deadline after 131,072 ticks, with nothing lost.
pub fn far_away(library: &mut Library, chain: &Chain) -> Result<(), Failure> {
    let answer = library.recording_run(chain, 200_000)?;
    same_answer("the yardstick's", &recording_run(chain, 200_000), &answer)?;
    let Recording {
        number,
        kind,
        tick,
        at,
        losses,
        ..
    } = answer;
    if (number, kind, tick, at) != (0, NO_DEADLINE, 131_072, 3) || losses.count > 0 {
        return Err(Failure::Broken(
            "N_3 has no deadline at tick 131072, and nothing is lost",
        ));
    }
    Ok(())
}

/// Whether a recording tick was clean.
fn goes_on(answer: &Recording) -> bool {
    answer.number == 0 && answer.kind == CLEAN
}

/// What every answer keeps: the balance of each queue with its entries, the entries that the list
/// had, and the slots behind its new ones; and no overflow is an outcome.
fn kept(chain: &Chain, before: &Losses, answer: &Recording) -> Result<(), Failure> {
    let unchanged = answer.losses == *before;
    if answer.number != 0 && !unchanged {
        return Err(Failure::Broken(
            "a refused recording call leaves the list as it was",
        ));
    }
    if answer.number != 0 {
        return Ok(());
    }
    if answer.kind == OVERFLOWED {
        return Err(Failure::Broken("a recording call does not overflow"));
    }
    let (old, new) = (before.count as usize, answer.losses.count as usize);
    let slots = |losses: &Losses| {
        [
            losses.entries[..old].to_vec(),
            losses.entries[new..].to_vec(),
        ]
    };
    if new < old || slots(&answer.losses) != slots(before) {
        return Err(Failure::Broken(
            "entries stay, and so do the slots behind the new ones",
        ));
    }
    balanced(chain, answer)
}

/// Whether each queue's producer has put in what was taken out, what is held and what was lost.
fn balanced(chain: &Chain, answer: &Recording) -> Result<(), Failure> {
    let lost = sums(&answer.losses);
    for (i, queue) in chain.queues[..chain.n as usize].iter().enumerate() {
        let put = u128::from(queue.produce) * u128::from(answer.run.counts[i]);
        let taken = u128::from(queue.consume) * u128::from(answer.run.counts[i + 1]);
        if put != taken + u128::from(answer.run.held[i]) + u128::from(lost[i]) {
            return Err(Failure::Broken("tokens put are taken, held or lost"));
        }
    }
    Ok(())
}

/// What a tick that was not clean is answered with when it is asked again: the same, but for a full
/// list where a firing finishes, whose node has as much work done as there is and is refused.
fn asked_again(before: &Recording, again: &Recording) -> Result<(), Failure> {
    if before.kind != LIST_FULL || before.at == 0 {
        return same_answer("the answer of a recording tick asked again", again, before);
    }
    let due = Recording {
        number: 17,
        place: before.at - 1,
        run: before.run,
        losses: before.losses,
        ..Recording::default()
    };
    same_answer("the answer after a full list at a finish", again, &due)
}

/// Whether a recording run and the deadline run of the same chain and ticks agree, where the latter is
/// not refused: they are the same as long as nothing is lost, and the first loss is where the
/// deadline run overflows.
fn beside_deadline_run(plain: &OutcomeRun, answer: &Recording) -> Result<(), Failure> {
    if answer.number != 0 || plain.number != 0 {
        return Ok(());
    }
    match entries(&answer.losses).first() {
        None if plain.kind == OVERFLOWED => taken_back(plain, answer),
        None => same_answer(
            "the answer beside the deadline run's",
            &without_losses(answer),
            plain,
        ),
        Some(first) if plain.kind == OVERFLOWED => {
            if (first.tick, first.queue) != (plain.tick, plain.at) {
                return Err(Failure::Broken(
                    "the first loss is where the deadline run overflows",
                ));
            }
            Ok(())
        }
        Some(_) => Err(Failure::Broken(
            "nothing is lost where the deadline run does not overflow",
        )),
    }
}

/// Whether a recording run without losses beside a deadline run that overflows has lost something at
/// that instant, and no deadline then.
fn taken_back(plain: &OutcomeRun, answer: &Recording) -> Result<(), Failure> {
    if (answer.kind, answer.tick) != (NO_DEADLINE, plain.tick) {
        return Err(Failure::Broken(
            "something is lost where the deadline run overflows",
        ));
    }
    Ok(())
}

/// A recording run's outcome and state alone.
fn without_losses(answer: &Recording) -> OutcomeRun {
    OutcomeRun {
        number: answer.number,
        place: answer.place,
        kind: answer.kind,
        tick: answer.tick,
        at: answer.at,
        run: answer.run,
    }
}
