//! A chain as a record: its fields, their ranges, and the checks that every call makes of it.

use std::ops::RangeInclusive;

/// The most queues that a chain has.
pub const MAX_QUEUES: usize = 16;

/// The bytes of the header: n, y, queue table offset, node table offset, total length.
pub const HEADER: usize = 20;

/// The bytes of a queue row: p, τ, c, B, reserved.
pub const QUEUE_ROW: usize = 20;

/// The bytes of a node row: e.
pub const NODE_ROW: usize = 4;

/// The range of p, τ and c.
pub const TOKENS: RangeInclusive<u32> = 1..=65_535;

/// The range of y and e.
pub const TICKS: RangeInclusive<u32> = 1..=1_000_000;

/// The range of B, where 0 stands for the minimum.
pub const CAPACITY: RangeInclusive<u32> = 0..=1_000_000;

/// The range of the reserved word.
pub const RESERVED: RangeInclusive<u32> = 0..=0;

/// One queue row.
#[repr(C)]
#[derive(Clone, Copy, Debug, Default, PartialEq, Eq)]
pub struct Queue {
    pub produce: u32,
    pub threshold: u32,
    pub consume: u32,
    pub capacity: u32,
    pub reserved: u32,
}

/// A chain of n queues; `work[i]` is the execution time of N_(i+1).
#[repr(C)]
#[derive(Clone, Copy, Debug, Default, PartialEq, Eq)]
pub struct Chain {
    pub n: u32,
    pub period: u32,
    pub queues: [Queue; MAX_QUEUES],
    pub work: [u32; MAX_QUEUES],
}

/// Why a call was refused, and where.
#[derive(Clone, Copy)]
pub(crate) struct Refusal {
    pub number: u32,
    pub place: u32,
}

/// Where the two tables of a file begin.
#[derive(Clone, Copy)]
pub(crate) struct Tables {
    pub queues: usize,
    pub nodes: usize,
}

/// Checks 2, 4 and 5 of a record in order. The answer is n and the tables of its packed file.
#[inline(always)]
pub(crate) fn checked_record(chain: &Chain) -> Result<(usize, Tables), Refusal> {
    let n = checked_count(chain.n)?;
    let tables = packed_tables(n);
    let queues = chain.queues[..n].iter().copied();
    let nodes = chain.work[..n].iter().copied();
    check_fields(chain.period, queues.clone(), nodes, tables)?;
    check_consumption(queues, tables)?;
    Ok((n, tables))
}

/// The bytes of a packed file of n queues.
pub const fn packed_length(n: usize) -> usize {
    HEADER + (QUEUE_ROW + NODE_ROW) * n
}

/// The tables of a packed file of n queues.
fn packed_tables(n: usize) -> Tables {
    Tables {
        queues: HEADER,
        nodes: HEADER + QUEUE_ROW * n,
    }
}

/// Check 2: n from 1 to 16.
pub(crate) fn checked_count(n: u32) -> Result<usize, Refusal> {
    match n as usize {
        n @ 1..=MAX_QUEUES => Ok(n),
        _ => Err(Refusal {
            number: 2,
            place: 0,
        }),
    }
}

/// Check 4: y, then the queue rows in order and field order, then the node rows. Place is the
/// word's offset.
pub(crate) fn check_fields(
    period: u32,
    queues: impl Iterator<Item = Queue>,
    nodes: impl Iterator<Item = u32>,
    tables: Tables,
) -> Result<(), Refusal> {
    check_range(period, TICKS, 4)?;
    for (i, queue) in queues.enumerate() {
        let at = tables.queues + QUEUE_ROW * i;
        check_range(queue.produce, TOKENS, at)?;
        check_range(queue.threshold, TOKENS, at + 4)?;
        check_range(queue.consume, TOKENS, at + 8)?;
        check_range(queue.capacity, CAPACITY, at + 12)?;
        check_range(queue.reserved, RESERVED, at + 16)?;
    }
    for (i, work) in nodes.enumerate() {
        check_range(work, TICKS, tables.nodes + NODE_ROW * i)?;
    }
    Ok(())
}

/// One field of check 4.
fn check_range(value: u32, range: RangeInclusive<u32>, place: usize) -> Result<(), Refusal> {
    if range.contains(&value) {
        return Ok(());
    }
    Err(Refusal {
        number: 4,
        place: place as u32,
    })
}

/// Check 5: no c above its τ. Place is the offset of the first such c.
pub(crate) fn check_consumption(
    mut queues: impl Iterator<Item = Queue>,
    tables: Tables,
) -> Result<(), Refusal> {
    match queues.position(|queue| queue.consume > queue.threshold) {
        Some(i) => Err(Refusal {
            number: 5,
            place: (tables.queues + QUEUE_ROW * i + 8) as u32,
        }),
        None => Ok(()),
    }
}
