//! The calls that are measured, with the signatures of the C header: a table of them for each side,
//! and a safe form of each.

use std::fmt::Debug;
use yardstick::{
    AnalysisAnswer, Chain, ChainAnswer, DeadlineAnswer, LengthAnswer, Loss, Losses, OutcomeAnswer,
    OutcomeRun, Recording, Run, RunAnswer,
};

/// The calls of one side. Each comes back from any values; a pointer with a length must be that of a
/// slice, one without that of a value, to read or to write as its type says.
pub struct Calls {
    pub read: unsafe extern "C" fn(*const u8, usize) -> ChainAnswer,
    pub write: unsafe extern "C" fn(Chain, *mut u8, usize) -> LengthAnswer,
    pub factory: unsafe extern "C" fn(u32) -> ChainAnswer,
    pub analyse: unsafe extern "C" fn(Chain) -> AnalysisAnswer,
    pub report: unsafe extern "C" fn(*const u8, usize, *mut u8, usize) -> LengthAnswer,
    pub fresh: unsafe extern "C" fn(Chain) -> RunAnswer,
    pub fire: unsafe extern "C" fn(Chain, Run, u32) -> RunAnswer,
    pub immediate: unsafe extern "C" fn(Chain, u32) -> RunAnswer,
    pub deadline: unsafe extern "C" fn(Chain, u32, u32) -> DeadlineAnswer,
    pub tick: unsafe extern "C" fn(*const Chain, *mut Run) -> OutcomeAnswer,
    pub deadline_run: unsafe extern "C" fn(Chain, u32) -> OutcomeRun,
    pub recording_tick: unsafe extern "C" fn(*const Chain, *mut Run, *mut Losses) -> OutcomeAnswer,
    pub recording_run: unsafe extern "C" fn(Chain, u32) -> Recording,
}

/// What a tick gives: its outcome, and the state that was lent to it.
#[derive(Debug, PartialEq)]
pub struct Ticked {
    outcome: OutcomeAnswer,
    run: Run,
}

/// What a recording tick gives: its outcome, the state that was lent to it, and of the list that was
/// lent the count and the last entry, if there is one.
#[derive(Debug, PartialEq)]
pub struct Recorded {
    ticked: Ticked,
    count: u32,
    last: Option<Loss>,
}

/// What a call gives, with the number of its refusal, 0 for none.
pub trait Answer: Debug + PartialEq {
    fn number(&self) -> u32;
}

/// Each answer of the header has its number in a field of that name.
macro_rules! answers {
    ($($answer:ty),*) => {
        $(impl Answer for $answer {
            fn number(&self) -> u32 {
                self.number
            }
        })*
    };
}

answers!(
    ChainAnswer,
    LengthAnswer,
    AnalysisAnswer,
    RunAnswer,
    DeadlineAnswer,
    OutcomeRun,
    Recording
);

impl Answer for Ticked {
    fn number(&self) -> u32 {
        self.outcome.number
    }
}

impl Answer for Recorded {
    fn number(&self) -> u32 {
        self.ticked.number()
    }
}

impl Calls {
    /// The chain of a file.
    #[inline(always)]
    pub fn read(&self, file: &[u8]) -> ChainAnswer {
        // SAFETY: pointer and length are those of a slice, which the call only reads.
        unsafe { (self.read)(file.as_ptr(), file.len()) }
    }

    /// The packed file of a chain, at the start of `out`.
    #[inline(always)]
    pub fn write(&self, chain: &Chain, out: &mut [u8]) -> LengthAnswer {
        // SAFETY: pointer and length are those of a slice that is lent for the call.
        unsafe { (self.write)(*chain, out.as_mut_ptr(), out.len()) }
    }

    /// The factory chain of a number.
    #[inline(always)]
    pub fn factory(&self, number: u32) -> ChainAnswer {
        // SAFETY: the call takes any number.
        unsafe { (self.factory)(number) }
    }

    /// The analysis of a chain.
    #[inline(always)]
    pub fn analyse(&self, chain: &Chain) -> AnalysisAnswer {
        // SAFETY: the call takes any chain.
        unsafe { (self.analyse)(*chain) }
    }

    /// The report on a file, at the start of `out`.
    #[inline(always)]
    pub fn report(&self, file: &[u8], out: &mut [u8]) -> LengthAnswer {
        // SAFETY: pointers and lengths are those of two slices, of which the call only reads the
        // first and is lent the second.
        unsafe { (self.report)(file.as_ptr(), file.len(), out.as_mut_ptr(), out.len()) }
    }

    /// The state of a fresh start.
    #[inline(always)]
    pub fn fresh(&self, chain: &Chain) -> RunAnswer {
        // SAFETY: the call takes any chain.
        unsafe { (self.fresh)(*chain) }
    }

    /// The state after a firing of one node.
    #[inline(always)]
    pub fn fire(&self, chain: &Chain, run: &Run, node: u32) -> RunAnswer {
        // SAFETY: the call takes any chain, state and node.
        unsafe { (self.fire)(*chain, *run, node) }
    }

    /// The state after an immediate run of k source firings.
    #[inline(always)]
    pub fn immediate(&self, chain: &Chain, k: u32) -> RunAnswer {
        // SAFETY: the call takes any chain and number.
        unsafe { (self.immediate)(*chain, k) }
    }

    /// The deadline of a node's firing of an index.
    #[inline(always)]
    pub fn deadline(&self, chain: &Chain, node: u32, index: u32) -> DeadlineAnswer {
        // SAFETY: the call takes any chain, node and index.
        unsafe { (self.deadline)(*chain, node, index) }
    }

    /// The outcome of one tick that is made of a copy of a state, which is lent.
    #[inline(always)]
    pub fn tick(&self, chain: &Chain, run: &Run) -> Ticked {
        let mut ticked = Ticked {
            outcome: OutcomeAnswer::default(),
            run: *run,
        };
        // SAFETY: both pointers are those of references, of which the call only reads the first and
        // is lent the second.
        ticked.outcome = unsafe { (self.tick)(chain, &mut ticked.run) };
        ticked
    }

    /// The outcome of a deadline run of so many ticks.
    #[inline(always)]
    pub fn deadline_run(&self, chain: &Chain, ticks: u32) -> OutcomeRun {
        // SAFETY: the call takes any chain and number.
        unsafe { (self.deadline_run)(*chain, ticks) }
    }

    /// The outcome of one recording tick that is made of a copy of a state and of a list, which are
    /// lent.
    #[inline(always)]
    pub fn recording_tick(&self, chain: &Chain, run: &Run, losses: &mut Losses) -> Recorded {
        let mut ticked = Ticked {
            outcome: OutcomeAnswer::default(),
            run: *run,
        };
        // SAFETY: the pointers are those of references, of which the call only reads the first and
        // is lent the others.
        ticked.outcome = unsafe { (self.recording_tick)(chain, &mut ticked.run, losses) };
        let last = (losses.count as usize).wrapping_sub(1);
        Recorded {
            ticked,
            count: losses.count,
            last: losses.entries.get(last).copied(),
        }
    }

    /// The outcome of a recording run of so many ticks.
    #[inline(always)]
    pub fn recording_run(&self, chain: &Chain, ticks: u32) -> Recording {
        // SAFETY: the call takes any chain and number.
        unsafe { (self.recording_run)(*chain, ticks) }
    }
}
