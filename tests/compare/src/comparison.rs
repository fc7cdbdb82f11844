//! The comparison of one call on one input: the answer, the lent memory, and the way back through
//! the other call.

use crate::analysed::Request;
use crate::deadline_runs;
use crate::deadline_sights::{DeadlineRuns, Questions};
use crate::firings::{Firing, History};
use crate::lent::Lent;
use crate::library::{Large, Library, Lost};
use crate::plain::Plain;
use crate::questions::Question;
use crate::records::Record;
use crate::run_sights::{Firings, Runs};
use crate::runs;
use crate::sights::{Analyses, Reports};
use crate::tally::Tally;
use crate::tick_sights::Ticks;
use crate::ticks::{Tick, Walk};
use compare::packed::{packed_file, packed_form};
use compare::random::Random;
use std::fmt;
use yardstick::{
    Chain, ChainAnswer, LengthAnswer, OutcomeRun, Queue, Run, RunAnswer, CLEAN, OVERFLOWED,
};

/// The most bytes that are shown of an input or of lent memory.
const SHOWN: usize = 4_100;

/// What the library gave where something else was due, and how such bytes are shown.
pub struct Difference {
    what: &'static str,
    library: Vec<u8>,
    due: Vec<u8>,
    shown: fn(&[u8]) -> String,
}

impl fmt::Display for Difference {
    /// Three lines: what differs, the library's bytes, the bytes that were due.
    fn fmt(&self, lines: &mut fmt::Formatter) -> fmt::Result {
        writeln!(lines, "  {} differs", self.what)?;
        writeln!(lines, "  library: {}", (self.shown)(&self.library))?;
        write!(lines, "  due:     {}", (self.shown)(&self.due))
    }
}

/// Why an input did not pass.
pub enum Failure {
    /// The library gave something else than was due.
    Differs(Difference),
    /// What the library gave on the way breaks a promise.
    Broken(&'static str),
    /// The library gave nothing.
    Lost(Lost),
}

impl From<Lost> for Failure {
    /// A lost library is a failure.
    fn from(lost: Lost) -> Self {
        Failure::Lost(lost)
    }
}

/// Compares reading a file; a chain that was read must be written as the file's packed form.
pub fn read(
    library: &mut Library,
    seen: &mut Tally,
    random: &mut Random,
    file: &[u8],
) -> Result<(), Failure> {
    let mut lent = Lent::file(random, file);
    let before = lent.memory.clone();
    let answer = library.read(&mut lent)?;
    seen.count(answer.number);
    same_answer("the answer", &answer, &yardstick::read(file))?;
    same_bytes(
        "the memory of the file and around it",
        &lent.memory,
        &before,
    )?;
    match answer.number {
        0 => written_as(library, random, &answer.chain, &packed_form(file)),
        _ => Ok(()),
    }
}

/// Compares writing a record; a file that was written must be the packed one and give the record
/// back.
pub fn write(
    library: &mut Library,
    seen: &mut Tally,
    random: &mut Random,
    record: &Record,
) -> Result<(), Failure> {
    let mut lent = Lent::random(random, record.room);
    let mut due = lent.clone();
    let answer = library.write(&record.chain, &mut lent)?;
    seen.count(answer.number);
    same_answer(
        "the answer",
        &answer,
        &yardstick::write(&record.chain, due.bytes_mut()),
    )?;
    same_bytes("the memory lent and around it", &lent.memory, &due.memory)?;
    match answer.number {
        0 => {
            let file = &lent.bytes()[..answer.length as usize];
            same_bytes("the packed file", file, &packed_file(&record.chain))?;
            read_as(library, random, file, &without_litter(&record.chain))
        }
        _ => Ok(()),
    }
}

/// Compares a factory chain; it must be written as its packed file and come back from it.
pub fn factory(
    library: &mut Library,
    seen: &mut Tally,
    random: &mut Random,
    number: u32,
) -> Result<(), Failure> {
    let answer = library.factory(number)?;
    seen.count(answer.number);
    same_answer("the answer", &answer, &yardstick::factory(number))?;
    match answer.number {
        0 => {
            let file = packed_file(&answer.chain);
            written_as(library, random, &answer.chain, &file)?;
            read_as(library, random, &file, &answer.chain)
        }
        _ => Ok(()),
    }
}

/// Compares the analysis of a chain.
pub fn analyse(library: &mut Library, seen: &mut Analyses, chain: &Chain) -> Result<(), Failure> {
    let answer = library.analyse(chain)?;
    let due = yardstick::analyse(chain);
    seen.count(chain, &due);
    same_answer("the answer", &answer, &due)
}

/// Compares the report on a file.
pub fn report(
    library: &mut Library,
    seen: &mut Reports,
    random: &mut Random,
    request: &Request,
) -> Result<(), Failure> {
    let mut file = Lent::file(random, &request.file);
    let before = file.memory.clone();
    let mut lent = Lent::random(random, request.room);
    let mut due = lent.clone();
    let answer = library.report(&mut file, &mut lent)?;
    let due_answer = yardstick::report(&request.file, due.bytes_mut());
    seen.count(&request.file, due.bytes(), &due_answer);
    same_answer("the answer", &answer, &due_answer)?;
    same_bytes("the memory lent and around it", &lent.memory, &due.memory)?;
    same_bytes(
        "the memory of the file and around it",
        &file.memory,
        &before,
    )
}

/// Compares a fresh start.
pub fn fresh(library: &mut Library, seen: &mut Tally, chain: &Chain) -> Result<(), Failure> {
    let answer = library.fresh(chain)?;
    let due = yardstick::fresh(chain);
    seen.count(due.number);
    same_answer("the answer", &answer, &due)
}

/// Compares the firing of one node.
pub fn fire(library: &mut Library, seen: &mut Firings, firing: &Firing) -> Result<(), Failure> {
    let answer = library.fire(&firing.chain, &firing.run, firing.node)?;
    let due = yardstick::fire(&firing.chain, firing.run, firing.node);
    seen.count(firing, &due);
    same_answer("the answer", &answer, &due)
}

/// The answers that a history must have.
pub fn due_answers(history: &History) -> Vec<RunAnswer> {
    let mut run = history.run;
    let fire = |&node| {
        let answer = yardstick::fire(&history.chain, run, node);
        run = answer.run;
        answer
    };
    history.nodes.iter().map(fire).collect()
}

/// Compares the firings of a history with the answers that it must have.
pub fn history(library: &mut Library, history: &History, due: &[RunAnswer]) -> Result<(), Failure> {
    let answers = library.history(&history.chain, &history.run, &history.nodes)?;
    for (answer, due) in answers.iter().zip(due) {
        same_answer("the answer of a firing", answer, due)?;
    }
    Ok(())
}

/// Compares an immediate run.
pub fn immediate(
    library: &mut Library,
    seen: &mut Runs,
    request: &runs::Request,
) -> Result<(), Failure> {
    let answer = library.immediate(&request.chain, request.k)?;
    let due = yardstick::immediate(&request.chain, request.k);
    seen.count(request, &due);
    same_answer("the answer", &answer, &due)
}

/// Compares a deadline question.
pub fn deadline(
    library: &mut Library,
    seen: &mut Questions,
    question: &Question,
) -> Result<(), Failure> {
    let Question { chain, node, index } = question;
    let answer = library.deadline(chain, *node, *index)?;
    let due = yardstick::deadline(chain, *node, *index);
    seen.count(question, &due);
    same_answer("the answer", &answer, &due)
}

/// Compares a deadline run.
pub fn deadline_run(
    library: &mut Library,
    seen: &mut DeadlineRuns,
    request: &deadline_runs::Request,
) -> Result<(), Failure> {
    let answer = library.deadline_run(&request.chain, request.ticks)?;
    let due = yardstick::deadline_run(&request.chain, request.ticks);
    seen.count(request, &due);
    no_late_overflow(&answer)?;
    same_answer("the answer", &answer, &due)
}

/// Compares one tick.
pub fn tick(library: &mut Library, seen: &mut Ticks, tick: &Tick) -> Result<(), Failure> {
    let answer = library.tick(&tick.chain, &tick.run)?;
    let due = yardstick::tick(&tick.chain, tick.run);
    seen.count(tick, &due);
    no_late_overflow(&answer)?;
    same_answer("the answer", &answer, &due)
}

/// Compares ticks that follow each other. One that is not clean leaves a state from which the next
/// has the same answer.
pub fn ticks(library: &mut Library, seen: &mut Ticks, walk: &Walk) -> Result<(), Failure> {
    let Walk { chain, run, ticks } = walk;
    let answers = library.ticks(chain, run, *ticks)?;
    let mut run = *run;
    for (i, answer) in answers.iter().enumerate() {
        let due = yardstick::tick(chain, run);
        seen.count(&Tick { chain: *chain, run }, &due);
        no_late_overflow(answer)?;
        same_answer("the answer of a tick", answer, &due)?;
        if let Some(before) = i.checked_sub(1).map(|before| &answers[before]) {
            if !goes_on(before) {
                same_answer("the answer of a tick asked again", answer, before)?;
            }
        }
        run = answer.run;
    }
    Ok(())
}

/// Compares the deadline runs of 0 ticks, of 1, and so on to so many with the yardstick's and with as
/// many ticks from a fresh start, up to the first that is not clean.
pub fn each_length(library: &mut Library, chain: &Chain, most: u32) -> Result<(), Failure> {
    let runs = library.each_length(chain, most)?;
    let ticks = library.ticks(chain, &Run::default(), u64::from(most))?;
    let mut ticked = OutcomeRun::default();
    for (length, run) in runs.iter().enumerate() {
        if goes_on(&ticked) && length > 0 {
            ticked = ticks[length - 1];
        }
        same_answer(
            "the answer",
            run,
            &yardstick::deadline_run(chain, length as u32),
        )?;
        same_answer("the answer of as many ticks", &ticked, run)?;
    }
    Ok(())
}

/// Compares a deadline run with as many ticks from a fresh start, up to the first that is not clean.
pub fn ticked(library: &mut Library, request: &deadline_runs::Request) -> Result<(), Failure> {
    let (chain, ticks) = (&request.chain, request.ticks);
    let run = library.deadline_run(chain, ticks)?;
    let ticked = library.last_tick(chain, &Run::default(), u64::from(ticks))?;
    same_answer("the answer of as many ticks", &ticked, &run)
}

/// Whether a tick was clean.
fn goes_on(answer: &OutcomeRun) -> bool {
    answer.number == 0 && answer.kind == CLEAN
}

/// Whether an overflow is one at the source: where check 8 has passed, a node has room behind it when
/// it finishes.
fn no_late_overflow(answer: &OutcomeRun) -> Result<(), Failure> {
    if answer.kind == OVERFLOWED && answer.at > 0 {
        return Err(Failure::Broken("no firing overflows as it finishes"));
    }
    Ok(())
}

/// Compares what writing a valid chain to large memory gave.
pub fn write_large(seen: &mut Tally, chain: &Chain, large: &Large) -> Result<(), Failure> {
    let mut due = vec![0; large.first.len()];
    seen.count(large.written.number);
    same_answer(
        "the answer",
        &large.written,
        &yardstick::write(chain, &mut due),
    )?;
    same_bytes("the first bytes lent", &large.first, &due)
}

/// Compares what reading large memory gave: it is longer than any file.
pub fn read_large(seen: &mut Tally, large: &Large) -> Result<(), Failure> {
    seen.count(large.read.number);
    let due = ChainAnswer {
        number: 1,
        ..ChainAnswer::default()
    };
    same_answer("the answer", &large.read, &due)
}

/// Compares what reporting on the packed file of a valid chain to large memory gave.
pub fn report_large(chain: &Chain, large: &Large) -> Result<(), Failure> {
    let mut due = vec![0; large.text.len()];
    let due_answer = yardstick::report(&packed_file(chain), &mut due);
    same_answer("the answer", &large.reported, &due_answer)?;
    same_bytes("the first bytes lent", &large.text, &due)
}

/// Whether the library writes a chain as these bytes, given no more room than they need.
fn written_as(
    library: &mut Library,
    random: &mut Random,
    chain: &Chain,
    file: &[u8],
) -> Result<(), Failure> {
    let mut lent = Lent::random(random, file.len());
    let answer = library.write(chain, &mut lent)?;
    let due = LengthAnswer {
        number: 0,
        place: 0,
        length: file.len() as u64,
    };
    same_answer("the answer of writing the chain", &answer, &due)?;
    same_bytes("the chain written", lent.bytes(), file)
}

/// Whether the library reads a file as this chain.
fn read_as(
    library: &mut Library,
    random: &mut Random,
    file: &[u8],
    chain: &Chain,
) -> Result<(), Failure> {
    let answer = library.read(&mut Lent::file(random, file))?;
    let due = ChainAnswer {
        number: 0,
        place: 0,
        chain: *chain,
    };
    same_answer("the answer of reading the file", &answer, &due)
}

/// Whether two answers have the same bytes.
pub fn same_answer<T: Plain>(what: &'static str, library: &T, due: &T) -> Result<(), Failure> {
    same(what, library.bytes(), due.bytes(), decimal)
}

/// Whether memory has the bytes that it should have.
fn same_bytes(what: &'static str, library: &[u8], due: &[u8]) -> Result<(), Failure> {
    same(what, library, due, hex)
}

/// Whether bytes are the same.
fn same(
    what: &'static str,
    library: &[u8],
    due: &[u8],
    shown: fn(&[u8]) -> String,
) -> Result<(), Failure> {
    if library == due {
        return Ok(());
    }
    Err(Failure::Differs(Difference {
        what,
        library: library.to_vec(),
        due: due.to_vec(),
        shown,
    }))
}

/// A chain whose n is valid, with zeros in its slots past n.
fn without_litter(chain: &Chain) -> Chain {
    let mut chain = *chain;
    chain.queues[chain.n as usize..].fill(Queue::default());
    chain.work[chain.n as usize..].fill(0);
    chain
}

/// The words of a struct as decimal numbers.
pub fn decimal(answer: &[u8]) -> String {
    let words = answer
        .chunks_exact(4)
        .map(|word| u32::from_le_bytes([word[0], word[1], word[2], word[3]]));
    words
        .map(|word| word.to_string())
        .collect::<Vec<_>>()
        .join(" ")
}

/// Bytes as hex, cut where they are very long.
pub fn hex(bytes: &[u8]) -> String {
    let digits: String = bytes
        .iter()
        .take(SHOWN)
        .map(|byte| format!("{byte:02x}"))
        .collect();
    match bytes.len().saturating_sub(SHOWN) {
        0 => digits,
        more => format!("{digits} and {more} more bytes"),
    }
}
