//! What the comparison and the bench share: random numbers, random chains, exact rates, the packed
//! file of a chain, the room for a report, and random run states.

pub mod chains;
mod header;
pub mod loaded;
pub mod packed;
pub mod random;
pub mod rates;
pub mod small;
pub mod states;
pub mod steered;
pub mod timed;

/// The header's room that every report fits: the library writes straight to so much, and copies to
/// less.
pub const MAX_REPORT_LENGTH: usize =
    header::number_behind("\n#define ARDENQUILL_MAX_REPORT_LENGTH ");

// The header counts a queue's number, too, with the ten digits that 32 bits can have.
const _: () = assert!(
    MAX_REPORT_LENGTH
        == yardstick::LONGEST_REPORT + (10 - yardstick::QUEUE_DIGITS) * yardstick::MAX_QUEUES
);
