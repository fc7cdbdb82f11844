//! The yardstick's calls behind the same boundary as the library's. What each asks of its pointers is
//! what `Calls` says.

use crate::calls::Calls;
use std::slice;
use yardstick::{
    AnalysisAnswer, Chain, ChainAnswer, DeadlineAnswer, LengthAnswer, Losses, OutcomeAnswer,
    OutcomeRun, Recording, Run, RunAnswer,
};

/// The yardstick's side.
pub const PLAIN: Calls = Calls {
    read,
    write,
    factory,
    analyse,
    report,
    fresh,
    fire,
    immediate,
    deadline,
    tick,
    deadline_run,
    recording_tick,
    recording_run,
};

unsafe extern "C" fn read(file: *const u8, file_length: usize) -> ChainAnswer {
    yardstick::read(slice::from_raw_parts(file, file_length))
}

unsafe extern "C" fn write(chain: Chain, out: *mut u8, out_length: usize) -> LengthAnswer {
    yardstick::write(&chain, slice::from_raw_parts_mut(out, out_length))
}

unsafe extern "C" fn factory(number: u32) -> ChainAnswer {
    yardstick::factory(number)
}

unsafe extern "C" fn analyse(chain: Chain) -> AnalysisAnswer {
    yardstick::analyse(&chain)
}

unsafe extern "C" fn report(
    file: *const u8,
    file_length: usize,
    out: *mut u8,
    out_length: usize,
) -> LengthAnswer {
    let file = slice::from_raw_parts(file, file_length);
    yardstick::report(file, slice::from_raw_parts_mut(out, out_length))
}

unsafe extern "C" fn fresh(chain: Chain) -> RunAnswer {
    yardstick::fresh(&chain)
}

unsafe extern "C" fn fire(chain: Chain, run: Run, node: u32) -> RunAnswer {
    yardstick::fire(&chain, run, node)
}

unsafe extern "C" fn immediate(chain: Chain, k: u32) -> RunAnswer {
    yardstick::immediate(&chain, k)
}

unsafe extern "C" fn deadline(chain: Chain, node: u32, index: u32) -> DeadlineAnswer {
    yardstick::deadline(&chain, node, index)
}

unsafe extern "C" fn tick(chain: *const Chain, run: *mut Run) -> OutcomeAnswer {
    yardstick::tick_lent(&*chain, &mut *run)
}

unsafe extern "C" fn deadline_run(chain: Chain, ticks: u32) -> OutcomeRun {
    yardstick::deadline_run(&chain, ticks)
}

unsafe extern "C" fn recording_tick(
    chain: *const Chain,
    run: *mut Run,
    losses: *mut Losses,
) -> OutcomeAnswer {
    yardstick::recording_tick_lent(&*chain, &mut *run, &mut *losses)
}

unsafe extern "C" fn recording_run(chain: Chain, ticks: u32) -> Recording {
    yardstick::recording_run(&chain, ticks)
}
