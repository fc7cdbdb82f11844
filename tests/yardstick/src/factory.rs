//! The chains that are fixed in the product.

use crate::chain::{Chain, Queue, MAX_QUEUES};
use crate::file::ChainAnswer;

/// The factory chain of that number; 14 if there is none.
pub fn factory(number: u32) -> ChainAnswer {
    match FACTORY.get(number as usize) {
        Some(&chain) => ChainAnswer {
            number: 0,
            place: 0,
            chain,
        },
        None => ChainAnswer {
            number: 14,
            place: number,
            chain: Chain::default(),
        },
    }
}

/// Feed, Permeate, Flush.
static FACTORY: [Chain; 3] = [
    fixed(10, &[[4, 7, 3, 0]], &[2]),
    fixed(5, &[[4, 7, 3, 0], [3, 4, 2, 0]], &[1, 1]),
    fixed(100, &[[16, 64, 16, 0], [1, 8, 8, 0]], &[5, 3]),
];

/// The chain of a period, its rows (p, τ, c, B) and its execution times.
const fn fixed(period: u32, rows: &[[u32; 4]], work: &[u32]) -> Chain {
    let zero = Queue {
        produce: 0,
        threshold: 0,
        consume: 0,
        capacity: 0,
        reserved: 0,
    };
    let mut chain = Chain {
        n: rows.len() as u32,
        period,
        queues: [zero; MAX_QUEUES],
        work: [0; MAX_QUEUES],
    };
    let mut i = 0;
    while i < rows.len() {
        let [produce, threshold, consume, capacity] = rows[i];
        chain.queues[i] = Queue {
            produce,
            threshold,
            consume,
            capacity,
            reserved: 0,
        };
        chain.work[i] = work[i];
        i += 1;
    }
    chain
}
