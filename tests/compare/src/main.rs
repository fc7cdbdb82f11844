//! Compares the library with the yardstick on both sides of every limit and on seeded random
//! inputs, and watches what it does on small chains:
//!     compare [--seed N] COMMAND WORDS
//! The command runs tests/calls.c, which has the library's calls. The last line is `N passed, M
//! failed`, N being the inputs on which the two agree.

mod analysed;
mod comparison;
mod deadline_runs;
mod deadline_sights;
mod due;
mod figures;
mod files;
mod firings;
mod instants;
mod lent;
mod library;
mod lists;
mod plain;
mod questions;
mod recorded;
mod recording_run_sights;
mod recording_runs;
mod recording_sights;
mod recordings;
mod records;
mod run_sights;
mod runs;
mod sights;
mod simulated;
mod sparse;
mod stretches;
mod tally;
mod tick_sights;
mod ticks;
mod watch;

use analysed::Request;
use compare::loaded::accepted;
use compare::random::Random;
use compare::small::small;
use comparison::{decimal, due_answers, hex, Failure};
use deadline_runs::without_deadline;
use deadline_sights::{DeadlineRuns, Questions};
use firings::{Firing, History};
use library::{Library, Lost};
use plain::Plain;
use questions::Question;
use recording_run_sights::RecordingRuns;
use recording_sights::RecordingTicks;
use recordings::{RecordingTick, RecordingWalk};
use records::Record;
use run_sights::{Firings, Runs};
use sights::{Analyses, Reports};
use sparse::brisk_or_sparse;
use std::env;
use std::ffi::OsString;
use std::process::ExitCode;
use tally::Tally;
use tick_sights::Ticks;
use ticks::{Tick, Walk};
use watch::Watch;
use yardstick::{deadline_run, packed_length, Chain, MAX_QUEUES, MAX_TICKS};

/// The seed of a run that is given none.
const SEED: u64 = 1;

/// The random files, records and factory numbers of a run, the chains that are analysed and
/// reported on, and the files that are reported on with any room; the fresh starts, the single
/// firings, the walks on a chain of each n, the immediate runs, and the small chains that are
/// watched; the deadline questions, the deadline runs, the chains whose runs are made at each length
/// and those whose instants are watched, the single ticks, and the times that ticks follow each other
/// from each kind of state on a chain of each n; and the same of recording runs and recording ticks.
const FILES: usize = 300_000;
const RECORDS: usize = 250_000;
const FACTORY_NUMBERS: usize = 20_000;
const ANALYSES: usize = 240_000;
const REPORTS: usize = 160_000;
const FRESH_STARTS: usize = 16_000;
const FIRINGS: usize = 120_000;
const WALKS: usize = 4;
const IMMEDIATE_RUNS: usize = 32_000;
const WATCHED: usize = 2_000;
const QUESTIONS: usize = 64_000;
const DEADLINE_RUNS: usize = 24_000;
const EACH_LENGTH: usize = 1_600;
const WATCHED_INSTANTS: usize = 1_600;
const TICKS: usize = 120_000;
const TICK_WALKS: usize = 24;
const RECORDING_RUNS: usize = 16_000;
const EACH_RECORDING_LENGTH: usize = 800;

/// How many times shorter than the longest runs those are that are compared with recording ticks.
const SHORTER: u32 = 50;

const RECORDING_TICKS: usize = 80_000;
const RECORDING_WALKS: usize = 6;

/// The fewest inputs that make a run.
const FEWEST: u64 = 1_000_000;

/// The fewest chains of a run that pass checks 2, 4 and 5 and are both analysed and reported on.
const FEWEST_CHAINS: u64 = 200_000;

/// The most ticks of runs that are made at each length.
const LENGTHS: usize = 160;

/// The most differences that are shown.
const SHOWN: u64 = 5;

/// A run so far.
struct Run {
    library: Library,
    random: Random,
    reads: Tally,
    writes: Tally,
    factories: Tally,
    analyses: Analyses,
    reports: Reports,
    fresh_starts: Tally,
    firings: Firings,
    runs: Runs,
    watched: Tally<&'static str>,
    questions: Questions,
    deadline_runs: DeadlineRuns,
    instants: Tally<&'static str>,
    ticks: Ticks,
    recording_runs: RecordingRuns,
    recording_ticks: RecordingTicks,
    passed: u64,
    failed: u64,
}

impl Run {
    /// A run that has compared nothing yet.
    fn new(library: Library, seed: u64) -> Self {
        Run {
            library,
            random: Random::new(seed),
            reads: Tally::default(),
            writes: Tally::default(),
            factories: Tally::default(),
            analyses: Analyses::default(),
            reports: Reports::default(),
            fresh_starts: Tally::default(),
            firings: Firings::default(),
            runs: Runs::default(),
            watched: Tally::default(),
            questions: Questions::default(),
            deadline_runs: DeadlineRuns::default(),
            instants: Tally::default(),
            ticks: Ticks::default(),
            recording_runs: RecordingRuns::default(),
            recording_ticks: RecordingTicks::default(),
            passed: 0,
            failed: 0,
        }
    }

    /// Compares everything, and gives how much passed and how much failed.
    fn whole(mut self) -> (u64, u64) {
        match self.compare() {
            Ok(()) => self.close(),
            Err(lost) => {
                println!("failed: {lost}");
                self.failed += 1;
            }
        }
        (self.passed, self.failed)
    }

    /// Compares the calls one after the other.
    fn compare(&mut self) -> Result<(), Lost> {
        self.compare_reads()?;
        self.compare_writes()?;
        self.compare_factories()?;
        self.compare_analyses()?;
        self.compare_reports()?;
        self.compare_fresh_starts()?;
        self.compare_firings()?;
        self.compare_walks()?;
        self.compare_runs()?;
        self.watch_small()?;
        self.compare_figures()?;
        self.compare_questions()?;
        self.compare_deadline_runs()?;
        self.compare_stretched_runs()?;
        self.compare_ticks()?;
        self.compare_each_length()?;
        self.watch_instants()?;
        self.compare_long_runs()?;
        self.compare_recording_runs()?;
        self.compare_recording_ticks()?;
        self.compare_each_recording_length()?;
        self.compare_long_recordings()?;
        self.compare_large()
    }

    /// Compares the reader on files.
    fn compare_reads(&mut self) -> Result<(), Lost> {
        for file in files::limits(&mut self.random) {
            self.compare_read(&file)?;
        }
        for _ in 0..FILES {
            let file = files::any(&mut self.random);
            self.compare_read(&file)?;
        }
        Ok(())
    }

    /// Compares the reader on one file.
    fn compare_read(&mut self, file: &[u8]) -> Result<(), Lost> {
        let result = comparison::read(&mut self.library, &mut self.reads, &mut self.random, file);
        self.settle(result, || {
            format!("read, {} bytes: {}", file.len(), hex(file))
        })
    }

    /// Compares the writer on records.
    fn compare_writes(&mut self) -> Result<(), Lost> {
        for record in records::limits(&mut self.random) {
            self.compare_write(&record)?;
        }
        for _ in 0..RECORDS {
            let record = records::any(&mut self.random);
            self.compare_write(&record)?;
        }
        Ok(())
    }

    /// Compares the writer on one record.
    fn compare_write(&mut self, record: &Record) -> Result<(), Lost> {
        let result = comparison::write(
            &mut self.library,
            &mut self.writes,
            &mut self.random,
            record,
        );
        self.settle(result, || {
            format!("write, room {}: {}", record.room, hex(record.chain.bytes()))
        })
    }

    /// Compares the factory chains on the numbers around the last one, around the powers of two and
    /// on random ones.
    fn compare_factories(&mut self) -> Result<(), Lost> {
        let powers = (0..32)
            .map(|bit| 1u32 << bit)
            .flat_map(|power| [power - 1, power, power + 1]);
        for number in (0..=5).chain(powers).chain([u32::MAX - 1, u32::MAX]) {
            self.compare_factory(number)?;
        }
        for _ in 0..FACTORY_NUMBERS {
            let number = self.random.word();
            self.compare_factory(number)?;
        }
        Ok(())
    }

    /// Compares one factory chain.
    fn compare_factory(&mut self, number: u32) -> Result<(), Lost> {
        let result = comparison::factory(
            &mut self.library,
            &mut self.factories,
            &mut self.random,
            number,
        );
        self.settle(result, || format!("factory: {number:08x}"))
    }

    /// Compares the analysis on chains, and the report on their packed files.
    fn compare_analyses(&mut self) -> Result<(), Lost> {
        for chain in analysed::limits(&mut self.random) {
            self.compare_chain(&chain)?;
        }
        for record in records::limits(&mut self.random) {
            self.compare_chain(&record.chain)?;
        }
        for i in 0..ANALYSES {
            let chain = analysed::any(&mut self.random, 1 + i % MAX_QUEUES);
            self.compare_chain(&chain)?;
        }
        Ok(())
    }

    /// Compares the analysis on one chain, and the report on its packed file with enough room.
    fn compare_chain(&mut self, chain: &Chain) -> Result<(), Lost> {
        let result = comparison::analyse(&mut self.library, &mut self.analyses, chain);
        self.settle(result, || format!("analyse: {}", decimal(chain.bytes())))?;
        let request = analysed::packed_request(&mut self.random, chain);
        self.compare_report(&request)
    }

    /// Compares the report on files with any room.
    fn compare_reports(&mut self) -> Result<(), Lost> {
        for request in analysed::request_limits(&mut self.random) {
            self.compare_report(&request)?;
        }
        for i in 0..REPORTS {
            let request = analysed::any_request(&mut self.random, 1 + i % MAX_QUEUES);
            self.compare_report(&request)?;
        }
        Ok(())
    }

    /// Compares the report on one file.
    fn compare_report(&mut self, request: &Request) -> Result<(), Lost> {
        let result = comparison::report(
            &mut self.library,
            &mut self.reports,
            &mut self.random,
            request,
        );
        self.settle(result, || {
            format!("report, room {}: {}", request.room, hex(&request.file))
        })
    }

    /// Compares the fresh start on chains.
    fn compare_fresh_starts(&mut self) -> Result<(), Lost> {
        for i in 0..FRESH_STARTS {
            let chain = analysed::any(&mut self.random, 1 + i % MAX_QUEUES);
            let result = comparison::fresh(&mut self.library, &mut self.fresh_starts, &chain);
            self.settle(result, || format!("fresh: {}", decimal(chain.bytes())))?;
        }
        Ok(())
    }

    /// Compares the firing of one node.
    fn compare_firings(&mut self) -> Result<(), Lost> {
        for firing in firings::limits(&mut self.random) {
            self.compare_firing(&firing)?;
        }
        for i in 0..FIRINGS {
            let firing = firings::any(&mut self.random, 1 + i % MAX_QUEUES);
            self.compare_firing(&firing)?;
        }
        Ok(())
    }

    /// Compares one firing.
    fn compare_firing(&mut self, firing: &Firing) -> Result<(), Lost> {
        let result = comparison::fire(&mut self.library, &mut self.firings, firing);
        self.settle(result, || {
            let (chain, run) = (decimal(firing.chain.bytes()), decimal(firing.run.bytes()));
            format!("fire, node {}, run {run}: {chain}", firing.node)
        })
    }

    /// Compares the firings of walks, each on one chain.
    fn compare_walks(&mut self) -> Result<(), Lost> {
        for i in 0..WALKS * MAX_QUEUES {
            let walk = firings::walk(&mut self.random, 1 + i % MAX_QUEUES);
            let due: Vec<_> = walk.iter().map(due_answers).collect();
            for (history, due) in walk.iter().zip(&due) {
                let result = comparison::history(&mut self.library, history, due);
                self.settle(result, || history_input(history))?;
            }
            self.firings.count_walk(&due);
        }
        Ok(())
    }

    /// Compares the immediate run.
    fn compare_runs(&mut self) -> Result<(), Lost> {
        for request in runs::limits(&mut self.random) {
            self.compare_run(&request)?;
        }
        for request in runs::large(&mut self.random) {
            self.compare_run(&request)?;
        }
        for i in 0..IMMEDIATE_RUNS {
            let request = runs::any(&mut self.random, 1 + i % MAX_QUEUES);
            self.compare_run(&request)?;
        }
        Ok(())
    }

    /// Compares one immediate run.
    fn compare_run(&mut self, request: &runs::Request) -> Result<(), Lost> {
        let result = comparison::immediate(&mut self.library, &mut self.runs, request);
        self.settle(result, || {
            let chain = decimal(request.chain.bytes());
            format!("immediate, k {}: {chain}", request.k)
        })
    }

    /// Watches the firings of small chains.
    fn watch_small(&mut self) -> Result<(), Lost> {
        for i in 0..WATCHED {
            let chain = small(&mut self.random, 1 + i % 4);
            let result = Watch::new(&mut self.library, &mut self.watched, &chain)
                .and_then(|mut watch| watch.all(&mut self.random));
            self.settle(result, || format!("watch: {}", decimal(chain.bytes())))?;
        }
        Ok(())
    }

    /// Compares the paper's figures.
    fn compare_figures(&mut self) -> Result<(), Lost> {
        for (name, result) in figures::all(&mut self.library) {
            self.settle(result, || format!("figures: {name}"))?;
        }
        Ok(())
    }

    /// Compares the deadline question.
    fn compare_questions(&mut self) -> Result<(), Lost> {
        for question in questions::limits(&mut self.random) {
            self.compare_question(&question)?;
        }
        for i in 0..QUESTIONS {
            let question = questions::any(&mut self.random, 1 + i % MAX_QUEUES);
            self.compare_question(&question)?;
        }
        Ok(())
    }

    /// Compares one deadline question.
    fn compare_question(&mut self, question: &Question) -> Result<(), Lost> {
        let result = comparison::deadline(&mut self.library, &mut self.questions, question);
        self.settle(result, || {
            let chain = decimal(question.chain.bytes());
            let (node, index) = (question.node, question.index);
            format!("deadline, node {node}, index {index}: {chain}")
        })
    }

    /// Compares the deadline run.
    fn compare_deadline_runs(&mut self) -> Result<(), Lost> {
        for request in deadline_runs::limits(&mut self.random) {
            self.compare_deadline_run(&request)?;
        }
        for i in 0..DEADLINE_RUNS {
            let request = deadline_runs::any(&mut self.random, 1 + i % MAX_QUEUES);
            self.compare_deadline_run(&request)?;
        }
        Ok(())
    }

    /// Compares one deadline run.
    fn compare_deadline_run(&mut self, request: &deadline_runs::Request) -> Result<(), Lost> {
        let result = comparison::deadline_run(&mut self.library, &mut self.deadline_runs, request);
        self.settle(result, || deadline_run_input(request))
    }

    /// Compares deadline runs around the end of long stretches of quiet ticks, and those past it
    /// with as many ticks.
    fn compare_stretched_runs(&mut self) -> Result<(), Lost> {
        for requests in deadline_runs::stretched(&mut self.random) {
            for request in &requests {
                self.compare_deadline_run(request)?;
            }
            let [.., past] = &requests;
            let result = comparison::ticked(&mut self.library, past);
            self.settle(result, || deadline_run_input(past))?;
        }
        Ok(())
    }

    /// Compares the longest deadline runs, and each with as many ticks.
    fn compare_long_runs(&mut self) -> Result<(), Lost> {
        for request in deadline_runs::long(&mut self.random) {
            self.compare_deadline_run(&request)?;
            let result = comparison::ticked(&mut self.library, &request);
            self.settle(result, || deadline_run_input(&request))?;
        }
        Ok(())
    }

    /// Compares the deadline runs of each length with as many ticks.
    fn compare_each_length(&mut self) -> Result<(), Lost> {
        for i in 0..EACH_LENGTH {
            let chain = brisk_or_sparse(&mut self.random, 1 + i % MAX_QUEUES);
            let most = self.random.below(LENGTHS) as u32;
            let result = comparison::each_length(&mut self.library, &chain, most);
            self.settle(result, || {
                format!("each length to {most}: {}", decimal(chain.bytes()))
            })?;
        }
        Ok(())
    }

    /// Watches the instants of deadline runs, and of ticks that come to a node without a deadline.
    fn watch_instants(&mut self) -> Result<(), Lost> {
        for i in 0..WATCHED_INSTANTS {
            let chain = brisk_or_sparse(&mut self.random, 1 + i % MAX_QUEUES);
            let most = self.random.below(LENGTHS) as u32;
            let result = instants::watch_runs(&mut self.library, &mut self.instants, &chain, most);
            self.settle(result, || {
                format!("instants to {most}: {}", decimal(chain.bytes()))
            })?;
        }
        for node in 2..=MAX_QUEUES {
            let chain = without_deadline(&mut self.random, node, node);
            let ticks = deadline_run(&chain, MAX_TICKS).tick + 2;
            let result =
                instants::watch_ticks(&mut self.library, &mut self.instants, &chain, ticks);
            self.settle(result, || {
                format!("instants of {ticks} ticks: {}", decimal(chain.bytes()))
            })?;
        }
        Ok(())
    }

    /// Compares single ticks, and ticks that follow each other.
    fn compare_ticks(&mut self) -> Result<(), Lost> {
        for tick in ticks::limits(&mut self.random) {
            self.compare_tick(&tick)?;
        }
        for i in 0..TICKS {
            let tick = ticks::any(&mut self.random, 1 + i % MAX_QUEUES);
            self.compare_tick(&tick)?;
        }
        for i in 0..TICK_WALKS * MAX_QUEUES {
            for walk in ticks::walks(&mut self.random, 1 + i % MAX_QUEUES) {
                let result = comparison::ticks(&mut self.library, &mut self.ticks, &walk);
                self.settle(result, || walk_input(&walk))?;
            }
        }
        Ok(())
    }

    /// Compares one tick.
    fn compare_tick(&mut self, tick: &Tick) -> Result<(), Lost> {
        let result = comparison::tick(&mut self.library, &mut self.ticks, tick);
        self.settle(result, || {
            let (chain, run) = (decimal(tick.chain.bytes()), decimal(tick.run.bytes()));
            format!("tick, run {run}: {chain}")
        })
    }

    /// Compares the recording run.
    fn compare_recording_runs(&mut self) -> Result<(), Lost> {
        for request in recording_runs::limits(&mut self.random) {
            self.compare_recording_run(&request)?;
        }
        for i in 0..RECORDING_RUNS {
            let request = recording_runs::any(&mut self.random, 1 + i % MAX_QUEUES);
            self.compare_recording_run(&request)?;
        }
        Ok(())
    }

    /// Compares one recording run.
    fn compare_recording_run(&mut self, request: &recording_runs::Request) -> Result<(), Lost> {
        let result = recorded::run(&mut self.library, &mut self.recording_runs, request);
        self.settle(result, || recording_run_input(request))
    }

    /// Compares single recording ticks, and recording ticks that follow each other.
    fn compare_recording_ticks(&mut self) -> Result<(), Lost> {
        for tick in recordings::limits(&mut self.random) {
            self.compare_recording_tick(&tick)?;
        }
        for i in 0..RECORDING_TICKS {
            let tick = recordings::any(&mut self.random, 1 + i % MAX_QUEUES);
            self.compare_recording_tick(&tick)?;
        }
        for i in 0..RECORDING_WALKS * MAX_QUEUES {
            for walk in recordings::walks(&mut self.random, 1 + i % MAX_QUEUES) {
                let result = recorded::ticks(&mut self.library, &mut self.recording_ticks, &walk);
                self.settle(result, || recording_walk_input(&walk))?;
            }
        }
        Ok(())
    }

    /// Compares one recording tick.
    fn compare_recording_tick(&mut self, tick: &RecordingTick) -> Result<(), Lost> {
        let result = recorded::tick(&mut self.library, &mut self.recording_ticks, tick);
        self.settle(result, || recording_tick_input(tick))
    }

    /// Compares the recording runs of each length with as many recording ticks.
    fn compare_each_recording_length(&mut self) -> Result<(), Lost> {
        for i in 0..EACH_RECORDING_LENGTH {
            let chain = recording_runs::for_each_length(&mut self.random, 1 + i % MAX_QUEUES);
            let most = self.random.below(LENGTHS) as u32;
            let result = recorded::each_length(&mut self.library, &chain, most);
            self.settle(result, || {
                format!(
                    "each recording length to {most}: {}",
                    decimal(chain.bytes())
                )
            })?;
        }
        Ok(())
    }

    /// Compares the longest recording runs, and one of each chain with as many recording ticks. That
    /// one is shorter, since a tick copies its list, which an emulator is slow at.
    fn compare_long_recordings(&mut self) -> Result<(), Lost> {
        for request in recording_runs::long(&mut self.random) {
            self.compare_recording_run(&request)?;
            let ticked = deadline_runs::Request {
                ticks: request.ticks / SHORTER,
                ..request
            };
            let result = recorded::ticked(&mut self.library, &ticked);
            self.settle(result, || recording_run_input(&ticked))?;
        }
        let chain = recording_runs::far_away();
        let result = recorded::far_away(&mut self.library, &chain);
        self.settle(result, || format!("far away: {}", decimal(chain.bytes())))
    }

    /// Compares reader, writer and report on lent memory whose length, cut to 32 bits, would be
    /// that of a packed file.
    fn compare_large(&mut self) -> Result<(), Lost> {
        let chain = accepted(&mut self.random, 1);
        let length = (1 << 32) + packed_length(1) as u64;
        let Some(large) = self.library.large(&chain, length)? else {
            println!("no memory of more than 2^32 bytes can be had: such lengths are not compared");
            return Ok(());
        };
        let result = comparison::write_large(&mut self.writes, &chain, &large);
        self.settle(result, || {
            format!("write, room {length}: {}", hex(chain.bytes()))
        })?;
        let result = comparison::read_large(&mut self.reads, &large);
        self.settle(result, || {
            format!("read, {length} bytes: {} and zeros", hex(&large.first))
        })?;
        let result = comparison::report_large(&chain, &large);
        self.settle(result, || {
            format!("report, room {length}: {}", hex(&large.first))
        })
    }

    /// Counts one input that the library answered, and shows it if it is among the first on which
    /// something differed or if the library was lost.
    fn settle(
        &mut self,
        result: Result<(), Failure>,
        input: impl Fn() -> String,
    ) -> Result<(), Lost> {
        match result {
            Ok(()) => self.passed += 1,
            Err(Failure::Differs(difference)) => {
                self.failed += 1;
                if self.failed <= SHOWN {
                    println!("failed: {}", input());
                    println!("{difference}");
                }
            }
            Err(Failure::Broken(promise)) => {
                self.failed += 1;
                if self.failed <= SHOWN {
                    println!("failed: {}", input());
                    println!("  broken: {promise}");
                }
            }
            Err(Failure::Lost(lost)) => {
                println!("lost: {}", input());
                return Err(lost);
            }
        }
        Ok(())
    }

    /// Prints what was seen, and counts as failed each thing that was never seen though it must be,
    /// and a short run.
    fn close(&mut self) {
        let inputs = self.passed + self.failed;
        let mut lines = vec![
            self.reads.line("read", [0, 1, 2, 3, 4, 5]),
            self.writes.line("write", [0, 2, 4, 5, 10]),
            self.factories.line("factory", [0, 14]),
        ];
        lines.extend(self.analyses.lines());
        lines.extend(self.reports.lines());
        lines.push(self.fresh_starts.line("fresh", [0, 2, 4, 5, 6, 7]));
        lines.extend(self.firings.lines());
        lines.extend(self.runs.lines());
        lines.push(self.watched.line("watch", watch::SIGHTS));
        lines.extend(self.questions.lines());
        lines.extend(self.deadline_runs.lines());
        lines.push(self.instants.line("instants", instants::SIGHTS));
        lines.extend(self.ticks.lines());
        lines.extend(self.recording_runs.lines());
        lines.extend(self.recording_ticks.lines());
        for line in lines {
            println!("{}: {}", line.name, line.seen);
            for missing in line.missing {
                println!("failed: {}: never seen: {missing}", line.name);
                self.failed += 1;
            }
        }
        if inputs < FEWEST {
            println!("failed: fewer than {FEWEST} inputs");
            self.failed += 1;
        }
        if self.analyses.valid() < FEWEST_CHAINS {
            println!("failed: fewer than {FEWEST_CHAINS} chains analysed and reported on");
            self.failed += 1;
        }
    }
}

/// A history as it is shown.
fn history_input(history: &History) -> String {
    let (chain, run) = (decimal(history.chain.bytes()), decimal(history.run.bytes()));
    let nodes: Vec<String> = history.nodes.iter().map(u32::to_string).collect();
    format!("fire, nodes {}, run {run}: {chain}", nodes.join(" "))
}

/// A deadline run as it is shown.
fn deadline_run_input(request: &deadline_runs::Request) -> String {
    let chain = decimal(request.chain.bytes());
    format!("deadline run, {} ticks: {chain}", request.ticks)
}

/// Ticks that follow each other as they are shown.
fn walk_input(walk: &Walk) -> String {
    let (chain, run) = (decimal(walk.chain.bytes()), decimal(walk.run.bytes()));
    format!("{} ticks, run {run}: {chain}", walk.ticks)
}

/// A recording run as it is shown.
fn recording_run_input(request: &recording_runs::Request) -> String {
    let chain = decimal(request.chain.bytes());
    format!("recording run, {} ticks: {chain}", request.ticks)
}

/// A recording tick as it is shown.
fn recording_tick_input(tick: &RecordingTick) -> String {
    let (chain, run) = (decimal(tick.chain.bytes()), decimal(tick.run.bytes()));
    let losses = decimal(tick.losses.bytes());
    format!("recording tick, run {run}, losses {losses}: {chain}")
}

/// Recording ticks that follow each other as they are shown.
fn recording_walk_input(walk: &RecordingWalk) -> String {
    let start = recording_tick_input(&walk.start);
    format!("{} ticks from: {start}", walk.ticks)
}

/// The seed and the command that the arguments give.
fn arguments() -> Option<(u64, Vec<OsString>)> {
    let mut words: Vec<OsString> = env::args_os().skip(1).collect();
    let mut seed = SEED;
    if words.first()? == "--seed" {
        seed = words.get(1)?.to_str()?.parse().ok()?;
        words.drain(..2);
    }
    (!words.is_empty()).then_some((seed, words))
}

fn main() -> ExitCode {
    let Some((seed, words)) = arguments() else {
        eprintln!("usage: compare [--seed N] COMMAND WORDS");
        return ExitCode::from(2);
    };
    println!("seed {seed}");
    let (passed, failed) = match Library::start(&words) {
        Ok(library) => Run::new(library, seed).whole(),
        Err(lost) => {
            println!("failed: {lost}");
            (0, 1)
        }
    };
    println!("{passed} passed, {failed} failed");
    ExitCode::from(u8::from(failed > 0))
}
