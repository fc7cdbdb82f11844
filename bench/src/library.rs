//! The library's calls, as the header declares them.

use crate::calls::Calls;
use yardstick::{
    AnalysisAnswer, Chain, ChainAnswer, DeadlineAnswer, LengthAnswer, Losses, OutcomeAnswer,
    OutcomeRun, Recording, Run, RunAnswer,
};

extern "C" {
    fn ardenquill_read(file: *const u8, file_length: usize) -> ChainAnswer;
    fn ardenquill_write(chain: Chain, out: *mut u8, out_length: usize) -> LengthAnswer;
    fn ardenquill_factory(number: u32) -> ChainAnswer;
    fn ardenquill_analyse(chain: Chain) -> AnalysisAnswer;
    fn ardenquill_report(
        file: *const u8,
        file_length: usize,
        out: *mut u8,
        out_length: usize,
    ) -> LengthAnswer;
    fn ardenquill_fresh(chain: Chain) -> RunAnswer;
    fn ardenquill_fire(chain: Chain, run: Run, node: u32) -> RunAnswer;
    fn ardenquill_immediate(chain: Chain, k: u32) -> RunAnswer;
    fn ardenquill_deadline(chain: Chain, node: u32, index: u32) -> DeadlineAnswer;
    fn ardenquill_tick(chain: *const Chain, run: *mut Run) -> OutcomeAnswer;
    fn ardenquill_deadline_run(chain: Chain, ticks: u32) -> OutcomeRun;
    fn ardenquill_recording_tick(
        chain: *const Chain,
        run: *mut Run,
        losses: *mut Losses,
    ) -> OutcomeAnswer;
    fn ardenquill_recording_run(chain: Chain, ticks: u32) -> Recording;
}

/// The library's side.
pub const LIBRARY: Calls = Calls {
    read: ardenquill_read,
    write: ardenquill_write,
    factory: ardenquill_factory,
    analyse: ardenquill_analyse,
    report: ardenquill_report,
    fresh: ardenquill_fresh,
    fire: ardenquill_fire,
    immediate: ardenquill_immediate,
    deadline: ardenquill_deadline,
    tick: ardenquill_tick,
    deadline_run: ardenquill_deadline_run,
    recording_tick: ardenquill_recording_tick,
    recording_run: ardenquill_recording_run,
};
