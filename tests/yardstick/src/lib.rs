//! The rules of the library in plain Rust, written from the scope paper alone and sharing nothing
//! with the library: reading a file, writing a record, the factory chains, the analysis, the
//! report, manual firing, the immediate run, deadlines, one tick and the deadline run, and both of
//! these with losses that are recorded. The answers have the layout of the C header.

mod analysis;
mod chain;
mod deadline;
mod deadline_run;
mod factory;
mod file;
mod immediate;
mod recording;
mod report;
mod run;
mod tick;

pub use analysis::{analyse, Analysis, AnalysisAnswer, QueueSize};
pub use chain::{
    packed_length, Chain, Queue, CAPACITY, HEADER, MAX_QUEUES, NODE_ROW, QUEUE_ROW, RESERVED,
    TICKS, TOKENS,
};
pub use deadline::{deadline, DeadlineAnswer};
pub use deadline_run::deadline_run;
pub use factory::factory;
pub use file::{read, write, ChainAnswer, LengthAnswer, MAX_FILE};
pub use immediate::{immediate, MAX_FIRINGS};
pub use recording::{
    recording_run, recording_tick, recording_tick_lent, Loss, Losses, Recording, LIST_FULL,
    MAX_LOSSES,
};
pub use report::{report, LONGEST_REPORT, QUEUE_DIGITS};
pub use run::{fire, fresh, Run, RunAnswer};
pub use tick::{
    tick, tick_lent, OutcomeAnswer, OutcomeRun, CLEAN, MAX_TICKS, NO_DEADLINE, OVERFLOWED,
};
