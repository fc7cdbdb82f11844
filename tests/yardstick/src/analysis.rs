//! Rates, load and minimum capacities: checks 6 and 7, and the analysis.

use crate::chain::{checked_record, Chain, Queue, Refusal, MAX_QUEUES};

/// One queue: its consumer's rate of x firings in y ticks, its minimum capacity, the producer's
/// firings by which the queue has held that, its capacity, and the capacity less the minimum.
#[repr(C)]
#[derive(Clone, Copy, Debug, Default, PartialEq, Eq)]
pub struct QueueSize {
    pub x: u32,
    pub y: u32,
    pub minimum: u32,
    pub by: u32,
    pub capacity: u32,
    pub margin: i32,
}

/// The n queues of a chain, and the busy ticks in each cycle.
#[repr(C)]
#[derive(Clone, Copy, Debug, Default, PartialEq, Eq)]
pub struct Analysis {
    pub n: u32,
    pub queues: [QueueSize; MAX_QUEUES],
    pub busy: u32,
    pub cycle: u32,
}

/// An analysis, or the number and place of a refusal beside a zero analysis.
#[repr(C)]
#[derive(Clone, Copy, Debug, Default, PartialEq, Eq)]
pub struct AnalysisAnswer {
    pub number: u32,
    pub place: u32,
    pub analysis: Analysis,
}

/// A node's firings x in y ticks.
#[derive(Clone, Copy)]
struct Rate {
    x: u32,
    y: u32,
}

/// The analysis of a chain, after checks 2, 4, 5, 6 and 7. Slots past n are zero.
pub fn analyse(chain: &Chain) -> AnalysisAnswer {
    match checked_record(chain).and_then(|_| analysed(chain)) {
        Ok(analysis) => AnalysisAnswer {
            number: 0,
            place: 0,
            analysis,
        },
        Err(Refusal { number, place }) => AnalysisAnswer {
            number,
            place,
            analysis: Analysis::default(),
        },
    }
}

/// Checks 6 and 7 of a chain that passes 2, 4 and 5, and its analysis.
pub(crate) fn analysed(chain: &Chain) -> Result<Analysis, Refusal> {
    let n = chain.n as usize;
    let mut queues = [QueueSize::default(); MAX_QUEUES];
    let mut rate = Rate {
        x: 1,
        y: chain.period,
    };
    for (i, queue) in chain.queues[..n].iter().enumerate() {
        rate = rate_behind(queue, rate).ok_or(Refusal {
            number: 6,
            place: i as u32 + 1,
        })?;
        queues[i] = sized(queue, rate);
    }
    Ok(Analysis {
        n: chain.n,
        busy: checked_busy(&queues[..n], &chain.work[..n], rate.y)?,
        queues,
        cycle: rate.y,
    })
}

/// The rate of a queue's consumer from that of its producer; none if a part of it passes 32 bits,
/// which is check 6.
fn rate_behind(queue: &Queue, producer: Rate) -> Option<Rate> {
    let produced = u64::from(queue.produce) * u64::from(producer.x);
    let consumed = u64::from(queue.consume) * u64::from(producer.y);
    let rest = (produced % u64::from(queue.consume)) as u32;
    let g = u64::from(gcd(rest, queue.consume));
    Some(Rate {
        x: u32::try_from(produced / g).ok()?,
        y: u32::try_from(consumed / g).ok()?,
    })
}

/// The line of a queue whose consume is not above its threshold and whose consumer has that rate.
fn sized(queue: &Queue, Rate { x, y }: Rate) -> QueueSize {
    let g = gcd(queue.produce, queue.consume);
    let minimum = (queue.threshold - 1) / g * g + queue.produce;
    let capacity = match queue.capacity {
        0 => minimum,
        capacity => capacity,
    };
    QueueSize {
        x,
        y,
        minimum,
        by: (queue.threshold - queue.consume).div_ceil(queue.produce) + queue.consume / g,
        capacity,
        margin: capacity as i32 - minimum as i32,
    }
}

/// Check 7: the busy ticks of a cycle, which may not be more than it has. An execution time has 20
/// bits, an x and a number of a node's turns in the cycle 32 each: a sum of 16 has at most 88.
fn checked_busy(queues: &[QueueSize], work: &[u32], cycle: u32) -> Result<u32, Refusal> {
    let parts = queues.iter().zip(work).map(|(queue, &work)| {
        let turn = u64::from(work) * u64::from(queue.x);
        u128::from(turn) * u128::from(cycle / queue.y)
    });
    let busy: u128 = parts.sum();
    if busy > u128::from(cycle) {
        return Err(Refusal {
            number: 7,
            place: 0,
        });
    }
    Ok(busy as u32)
}

/// The greatest common divisor of a number and one that is not 0, by subtraction of odd numbers.
fn gcd(a: u32, b: u32) -> u32 {
    if a == 0 {
        return b;
    }
    let twos = (a | b).trailing_zeros();
    let (mut a, mut b) = (a >> a.trailing_zeros(), b >> b.trailing_zeros());
    while a != b {
        let more = a.abs_diff(b);
        (a, b) = (a.min(b), more >> more.trailing_zeros());
    }
    a << twos
}
