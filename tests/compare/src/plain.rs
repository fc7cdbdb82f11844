//! The bytes of the structs that the library takes and gives.

use std::mem::size_of;
use std::slice;
use yardstick::{
    AnalysisAnswer, Chain, ChainAnswer, DeadlineAnswer, LengthAnswer, Losses, OutcomeRun,
    Recording, Run, RunAnswer, MAX_LOSSES, MAX_QUEUES,
};

/// A struct whose bytes are its fields.
///
/// # Safety
/// Its fields must be integers in the order of `repr(C)`, and no byte may lie between or behind
/// them.
pub unsafe trait Plain: Sized {
    /// The struct's bytes.
    fn bytes(&self) -> &[u8] {
        // SAFETY: every byte of the struct is a byte of one of its fields.
        unsafe { slice::from_raw_parts((self as *const Self).cast(), size_of::<Self>()) }
    }

    /// The struct's bytes, to be changed.
    fn bytes_mut(&mut self) -> &mut [u8] {
        // SAFETY: as above, and a field may have any bytes.
        unsafe { slice::from_raw_parts_mut((self as *mut Self).cast(), size_of::<Self>()) }
    }
}

// SAFETY: by the sizes below, the fields, which are integers, leave no byte between them.
unsafe impl Plain for Chain {}
unsafe impl Plain for ChainAnswer {}
unsafe impl Plain for LengthAnswer {}
unsafe impl Plain for AnalysisAnswer {}
unsafe impl Plain for Run {}
unsafe impl Plain for RunAnswer {}
unsafe impl Plain for DeadlineAnswer {}
unsafe impl Plain for OutcomeRun {}
unsafe impl Plain for Losses {}
unsafe impl Plain for Recording {}

const _: () = assert!(size_of::<Chain>() == 4 * (2 + 5 * MAX_QUEUES + MAX_QUEUES));
const _: () = assert!(size_of::<ChainAnswer>() == 4 + 4 + size_of::<Chain>());
const _: () = assert!(size_of::<LengthAnswer>() == 4 + 4 + 8);
const _: () = assert!(size_of::<AnalysisAnswer>() == 4 * (2 + 1 + 6 * MAX_QUEUES + 2));
const _: () = assert!(size_of::<Run>() == 4 * (1 + (MAX_QUEUES + 1) + 2 * MAX_QUEUES));
const _: () = assert!(size_of::<RunAnswer>() == 4 + 4 + size_of::<Run>());
const _: () = assert!(size_of::<DeadlineAnswer>() == 4 + 4 + 8);
const _: () = assert!(size_of::<OutcomeRun>() == 4 * 5 + size_of::<Run>());
const _: () = assert!(size_of::<Losses>() == 4 * (1 + 3 * MAX_LOSSES));
const _: () = assert!(size_of::<Recording>() == size_of::<OutcomeRun>() + size_of::<Losses>());
