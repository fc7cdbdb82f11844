//! The library's calls, made through a command that is tests/calls.c at the other end of a socket.

use crate::lent::Lent;
use crate::plain::Plain;
use std::ffi::OsString;
use std::fmt;
use std::io::{self, BufReader, ErrorKind, Read, Write};
use std::os::fd::OwnedFd;
use std::os::unix::net::UnixStream;
use std::process::{Child, Command};
use std::time::Duration;
use yardstick::{
    packed_length, AnalysisAnswer, Chain, ChainAnswer, DeadlineAnswer, LengthAnswer, Losses,
    OutcomeRun, Recording, Run, RunAnswer, MAX_QUEUES,
};

/// How long the command may take to go on with a request or an answer.
const PATIENCE: Duration = Duration::from_secs(60);

/// Why the command gives no more answers.
pub struct Lost(String);

impl fmt::Display for Lost {
    /// What happened to the command.
    fn fmt(&self, line: &mut fmt::Formatter) -> fmt::Result {
        write!(line, "the command {}", self.0)
    }
}

impl From<io::Error> for Lost {
    /// What an error on the socket says about the command.
    fn from(error: io::Error) -> Self {
        Lost(match error.kind() {
            ErrorKind::UnexpectedEof | ErrorKind::BrokenPipe | ErrorKind::ConnectionReset => {
                "ended before its answer did".to_string()
            }
            ErrorKind::WouldBlock | ErrorKind::TimedOut => {
                format!("has been silent for {} seconds", PATIENCE.as_secs())
            }
            _ => format!("can't be talked to: {error}"),
        })
    }
}

/// What the calls gave on memory that is too large to be sent.
pub struct Large {
    /// The answer of writing a chain to the memory.
    pub written: LengthAnswer,
    /// The first bytes of the memory after that.
    pub first: Vec<u8>,
    /// The answer of reading the memory after that.
    pub read: ChainAnswer,
    /// The answer of reporting on the packed file to the memory, which is zeros again.
    pub reported: LengthAnswer,
    /// The first bytes of the memory after that.
    pub text: Vec<u8>,
}

/// A command that makes the library's calls.
pub struct Library {
    command: Child,
    socket: BufReader<UnixStream>,
}

impl Library {
    /// Starts the command of some words.
    pub fn start(words: &[OsString]) -> Result<Self, Lost> {
        let (socket, theirs) = UnixStream::pair()?;
        socket.set_read_timeout(Some(PATIENCE))?;
        socket.set_write_timeout(Some(PATIENCE))?;
        let command = Command::new(&words[0])
            .args(&words[1..])
            .stdin(OwnedFd::from(theirs.try_clone()?))
            .stdout(OwnedFd::from(theirs))
            .spawn()
            .map_err(|error| Lost(format!("can't be started: {error}")))?;
        Ok(Library {
            command,
            socket: BufReader::new(socket),
        })
    }

    /// The chain of a file.
    pub fn read(&mut self, file: &mut Lent) -> Result<ChainAnswer, Lost> {
        self.ask(&[b"r", &lengths(file), &file.memory])?;
        let mut answer = ChainAnswer::default();
        self.take(answer.bytes_mut())?;
        self.take(&mut file.memory)?;
        Ok(answer)
    }

    /// The packed file of a chain, at the start of `out`.
    pub fn write(&mut self, chain: &Chain, out: &mut Lent) -> Result<LengthAnswer, Lost> {
        self.ask(&[b"w", chain.bytes(), &lengths(out), &out.memory])?;
        let mut answer = LengthAnswer::default();
        self.take(answer.bytes_mut())?;
        self.take(&mut out.memory)?;
        Ok(answer)
    }

    /// The factory chain of a number.
    pub fn factory(&mut self, number: u32) -> Result<ChainAnswer, Lost> {
        self.ask(&[b"f", &number.to_le_bytes()])?;
        let mut answer = ChainAnswer::default();
        self.take(answer.bytes_mut())?;
        Ok(answer)
    }

    /// The analysis of a chain.
    pub fn analyse(&mut self, chain: &Chain) -> Result<AnalysisAnswer, Lost> {
        self.ask(&[b"a", chain.bytes()])?;
        let mut answer = AnalysisAnswer::default();
        self.take(answer.bytes_mut())?;
        Ok(answer)
    }

    /// The report on a file, at the start of `out`.
    pub fn report(&mut self, file: &mut Lent, out: &mut Lent) -> Result<LengthAnswer, Lost> {
        self.ask(&[
            b"p",
            &lengths(file),
            &file.memory,
            &lengths(out),
            &out.memory,
        ])?;
        let mut answer = LengthAnswer::default();
        self.take(answer.bytes_mut())?;
        self.take(&mut file.memory)?;
        self.take(&mut out.memory)?;
        Ok(answer)
    }

    /// The state of a fresh start.
    pub fn fresh(&mut self, chain: &Chain) -> Result<RunAnswer, Lost> {
        self.ask(&[b"s", chain.bytes()])?;
        self.run_answer()
    }

    /// The state after a firing of one node.
    pub fn fire(&mut self, chain: &Chain, run: &Run, node: u32) -> Result<RunAnswer, Lost> {
        self.ask(&[b"m", chain.bytes(), run.bytes(), &node.to_le_bytes()])?;
        self.run_answer()
    }

    /// The answers of firing some nodes one after the other, each from the state that the answer
    /// before gave.
    pub fn history(
        &mut self,
        chain: &Chain,
        run: &Run,
        nodes: &[u32],
    ) -> Result<Vec<RunAnswer>, Lost> {
        let length = (nodes.len() as u64).to_le_bytes();
        let words: Vec<u8> = nodes.iter().flat_map(|node| node.to_le_bytes()).collect();
        self.ask(&[b"h", chain.bytes(), run.bytes(), &length, &words])?;
        nodes.iter().map(|_| self.run_answer()).collect()
    }

    /// The state after an immediate run of k source firings.
    pub fn immediate(&mut self, chain: &Chain, k: u32) -> Result<RunAnswer, Lost> {
        self.ask(&[b"i", chain.bytes(), &k.to_le_bytes()])?;
        self.run_answer()
    }

    /// The deadline of a node's firing of an index.
    pub fn deadline(
        &mut self,
        chain: &Chain,
        node: u32,
        index: u32,
    ) -> Result<DeadlineAnswer, Lost> {
        let (node, index) = (node.to_le_bytes(), index.to_le_bytes());
        self.ask(&[b"q", chain.bytes(), &node, &index])?;
        let mut answer = DeadlineAnswer::default();
        self.take(answer.bytes_mut())?;
        Ok(answer)
    }

    /// The outcome of a deadline run of so many ticks.
    pub fn deadline_run(&mut self, chain: &Chain, ticks: u32) -> Result<OutcomeRun, Lost> {
        self.ask(&[b"d", chain.bytes(), &ticks.to_le_bytes()])?;
        self.outcome_run()
    }

    /// The outcomes of deadline runs of 0 ticks, of 1, and so on to so many.
    pub fn each_length(&mut self, chain: &Chain, most: u32) -> Result<Vec<OutcomeRun>, Lost> {
        self.ask(&[b"e", chain.bytes(), &most.to_le_bytes()])?;
        (0..=most).map(|_| self.outcome_run()).collect()
    }

    /// The outcome of one tick.
    pub fn tick(&mut self, chain: &Chain, run: &Run) -> Result<OutcomeRun, Lost> {
        self.ask(&[b"t", chain.bytes(), run.bytes()])?;
        self.outcome_run()
    }

    /// The outcomes of so many ticks one after the other, each from the state that the one before
    /// left.
    pub fn ticks(&mut self, chain: &Chain, run: &Run, count: u64) -> Result<Vec<OutcomeRun>, Lost> {
        self.ask(&[b"k", chain.bytes(), run.bytes(), &count.to_le_bytes()])?;
        (0..count).map(|_| self.outcome_run()).collect()
    }

    /// The outcome of the last of so many ticks one after the other, or of the first that is refused
    /// or not clean.
    pub fn last_tick(&mut self, chain: &Chain, run: &Run, count: u64) -> Result<OutcomeRun, Lost> {
        self.ask(&[b"u", chain.bytes(), run.bytes(), &count.to_le_bytes()])?;
        self.outcome_run()
    }

    /// The outcome of a recording run of so many ticks.
    pub fn recording_run(&mut self, chain: &Chain, ticks: u32) -> Result<Recording, Lost> {
        self.ask(&[b"g", chain.bytes(), &ticks.to_le_bytes()])?;
        self.recording()
    }

    /// The outcomes of recording runs of 0 ticks, of 1, and so on to so many.
    pub fn each_recording_length(
        &mut self,
        chain: &Chain,
        most: u32,
    ) -> Result<Vec<Recording>, Lost> {
        self.ask(&[b"b", chain.bytes(), &most.to_le_bytes()])?;
        (0..=most).map(|_| self.recording()).collect()
    }

    /// The outcome of one recording tick.
    pub fn recording_tick(
        &mut self,
        chain: &Chain,
        run: &Run,
        losses: &Losses,
    ) -> Result<Recording, Lost> {
        self.ask(&[b"n", chain.bytes(), run.bytes(), losses.bytes()])?;
        self.recording()
    }

    /// The outcomes of so many recording ticks one after the other, each from the state and the list
    /// that the one before left.
    pub fn recording_ticks(
        &mut self,
        chain: &Chain,
        run: &Run,
        losses: &Losses,
        count: u64,
    ) -> Result<Vec<Recording>, Lost> {
        let (run, losses) = (run.bytes(), losses.bytes());
        self.ask(&[b"o", chain.bytes(), run, losses, &count.to_le_bytes()])?;
        (0..count).map(|_| self.recording()).collect()
    }

    /// The outcome of the last of so many recording ticks from a fresh start and an empty list, or
    /// of the first that is refused or not clean.
    pub fn last_recording_tick(&mut self, chain: &Chain, count: u64) -> Result<Recording, Lost> {
        let (run, losses) = (Run::default(), Losses::default());
        let count = count.to_le_bytes();
        self.ask(&[b"v", chain.bytes(), run.bytes(), losses.bytes(), &count])?;
        self.recording()
    }

    /// Writes a chain to so many zero bytes, reads them, and reports to them on the chain's packed
    /// file; nothing if they can't be had.
    pub fn large(&mut self, chain: &Chain, length: u64) -> Result<Option<Large>, Lost> {
        self.ask(&[b"l", chain.bytes(), &length.to_le_bytes()])?;
        let mut had = [0];
        self.take(&mut had)?;
        if had == [0] {
            return Ok(None);
        }
        let mut large = Large {
            written: LengthAnswer::default(),
            first: vec![0; packed_length(MAX_QUEUES)],
            read: ChainAnswer::default(),
            reported: LengthAnswer::default(),
            text: vec![0; packed_length(MAX_QUEUES)],
        };
        self.take(large.written.bytes_mut())?;
        self.take(&mut large.first)?;
        self.take(large.read.bytes_mut())?;
        self.take(large.reported.bytes_mut())?;
        self.take(&mut large.text)?;
        Ok(Some(large))
    }

    /// Takes an answer with a run state.
    fn run_answer(&mut self) -> Result<RunAnswer, Lost> {
        let mut answer = RunAnswer::default();
        self.take(answer.bytes_mut())?;
        Ok(answer)
    }

    /// Takes an answer with an outcome.
    fn outcome_run(&mut self) -> Result<OutcomeRun, Lost> {
        let mut answer = OutcomeRun::default();
        self.take(answer.bytes_mut())?;
        Ok(answer)
    }

    /// Takes an answer with an outcome and losses.
    fn recording(&mut self) -> Result<Recording, Lost> {
        let mut answer = Recording::default();
        self.take(answer.bytes_mut())?;
        Ok(answer)
    }

    /// Sends a request.
    fn ask(&mut self, parts: &[&[u8]]) -> Result<(), Lost> {
        Ok(self.socket.get_mut().write_all(&parts.concat())?)
    }

    /// Takes bytes of an answer.
    fn take(&mut self, bytes: &mut [u8]) -> Result<(), Lost> {
        Ok(self.socket.read_exact(bytes)?)
    }
}

impl Drop for Library {
    /// Ends the command, which has nothing to keep; one that has ended already is left alone.
    fn drop(&mut self) {
        let _ = self.command.kill();
        let _ = self.command.wait();
    }
}

/// The lengths of lent memory as a request has them.
fn lengths(lent: &Lent) -> Vec<u8> {
    let lengths = lent.lengths().map(|length| length as u64);
    lengths.into_iter().flat_map(u64::to_le_bytes).collect()
}
