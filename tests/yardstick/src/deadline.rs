//! Deadlines: the question for one, with checks 11 and 13.

use crate::analysis::Analysis;
use crate::chain::{Chain, Refusal};
use crate::run::runnable;

/// The tick that a firing is due at, or the number and place of a refusal beside 0.
#[repr(C)]
#[derive(Clone, Copy, Debug, Default, PartialEq, Eq)]
pub struct DeadlineAnswer {
    pub number: u32,
    pub place: u32,
    pub due: u64,
}

/// The deadline of a node's firing of that index, after checks 2, 4, 5, 6, 7, 8, 11 and 13.
pub fn deadline(chain: &Chain, node: u32, index: u32) -> DeadlineAnswer {
    match asked(chain, node, index) {
        Ok(due) => DeadlineAnswer {
            number: 0,
            place: 0,
            due,
        },
        Err(Refusal { number, place }) => DeadlineAnswer {
            number,
            place,
            due: 0,
        },
    }
}

/// The checks in order, then the deadline.
fn asked(chain: &Chain, node: u32, index: u32) -> Result<u64, Refusal> {
    let analysis = runnable(chain)?;
    if node > chain.n || index == 0 {
        return Err(Refusal {
            number: 11,
            place: node,
        });
    }
    due(chain, &analysis, node as usize, index - 1)
}

/// The deadline of the next firing of a node that has fired so often: down to the source, the index
/// of each node's firing follows from that of the node behind it. Check 13 of every index on the
/// way, each one above the firings before it.
pub(crate) fn due(
    chain: &Chain,
    analysis: &Analysis,
    node: usize,
    fired: u32,
) -> Result<u64, Refusal> {
    let mut fired = u64::from(fired);
    for i in (0..node).rev() {
        let queue = &chain.queues[i];
        let tokens = fired * u64::from(queue.consume) + u64::from(analysis.queues[i].capacity);
        fired = tokens / u64::from(queue.produce);
        if fired >= u64::from(u32::MAX) {
            return Err(Refusal {
                number: 13,
                place: i as u32,
            });
        }
    }
    Ok(fired * u64::from(chain.period))
}
