//! Records to compare the writer on, each with the room that is lent: both sides of every limit,
//! and random ones, valid and damaged.

use compare::chains::{
    above_threshold, any_count, any_word, bad_field, outside, valid, wide, AROUND_THRESHOLD,
    COUNTS, LIMITS,
};
use compare::random::Random;
use yardstick::{packed_length, Chain, MAX_FILE, MAX_QUEUES, TICKS};

/// The words of a record, slots past n included.
const WORDS: usize = 2 + 6 * MAX_QUEUES;

/// A record and the bytes that are lent for its file.
pub struct Record {
    pub chain: Chain,
    pub room: usize,
}

/// A word of a record by its place in memory: n, period, the queues' fields, the execution times.
fn word(chain: &mut Chain, index: usize) -> &mut u32 {
    match index {
        0 => &mut chain.n,
        1 => &mut chain.period,
        _ if index < 2 + 5 * MAX_QUEUES => field(chain, (index - 2) / 5, (index - 2) % 5),
        _ => &mut chain.work[index - 2 - 5 * MAX_QUEUES],
    }
}

/// A field of a queue by its place in the row.
fn field(chain: &mut Chain, row: usize, field: usize) -> &mut u32 {
    let queue = &mut chain.queues[row];
    match field {
        0 => &mut queue.produce,
        1 => &mut queue.threshold,
        2 => &mut queue.consume,
        3 => &mut queue.capacity,
        _ => &mut queue.reserved,
    }
}

/// Puts a threshold and a consume into a row.
fn put_threshold(chain: &mut Chain, row: usize, words: [u32; 2]) {
    [chain.queues[row].threshold, chain.queues[row].consume] = words;
}

/// A chain with random words in its slots past n.
pub fn littered(random: &mut Random, mut chain: Chain) -> Chain {
    for row in chain.n as usize..MAX_QUEUES {
        for i in 0..5 {
            *field(&mut chain, row, i) = any_word(random);
        }
        chain.work[row] = any_word(random);
    }
    chain
}

/// A random record with random room.
pub fn any(random: &mut Random) -> Record {
    let n = any_count(random);
    let chain = any_chain(random, n);
    Record {
        chain,
        room: any_room(random, packed_length(n)),
    }
}

/// A random chain with litter past its n rows: valid, with one to three faults, with damaged words,
/// or garbage.
fn any_chain(random: &mut Random, n: usize) -> Chain {
    let chain = valid(random, n);
    let mut chain = littered(random, chain);
    match random.below(16) {
        0..=5 => {}
        6..=12 => {
            for _ in 0..=random.below(3) {
                place_fault(random, &mut chain, n);
            }
        }
        13 | 14 => {
            for _ in 0..=random.below(3) {
                *word(&mut chain, random.below(WORDS)) = any_word(random);
            }
        }
        _ => {
            for index in 0..WORDS {
                *word(&mut chain, index) = any_word(random);
            }
        }
    }
    chain
}

/// Places one fault in a chain of n rows: in n, period, a queue's field, an execution time, or a
/// consume.
pub fn place_fault(random: &mut Random, chain: &mut Chain, n: usize) {
    let row = random.below(n);
    match random.below(8) {
        0 => chain.n = outside(random, 1..=MAX_QUEUES as u32),
        1 => chain.period = outside(random, TICKS),
        2..=4 => {
            let at = random.below(5);
            *field(chain, row, at) = bad_field(random, at);
        }
        5 => chain.work[row] = outside(random, TICKS),
        _ => put_threshold(chain, row, above_threshold(random)),
    }
}

/// Random room, more often than not close to what is needed.
fn any_room(random: &mut Random, needed: usize) -> usize {
    match random.below(8) {
        0 => needed - 1,
        1 => needed + 1,
        2 => random.below(needed),
        3 => needed + random.below(64),
        4 => random.below(MAX_FILE),
        _ => needed,
    }
}

/// Both sides of every limit, one after the other.
pub fn limits(random: &mut Random) -> Vec<Record> {
    let mut records = Vec::new();
    rooms(random, &mut records);
    counts(random, &mut records);
    fields(random, &mut records);
    consumption(random, &mut records);
    records
}

/// Every room from none to more than enough, for every n.
fn rooms(random: &mut Random, records: &mut Vec<Record>) {
    for n in 1..=MAX_QUEUES {
        for room in 0..=packed_length(n) + 32 {
            let chain = valid(random, n);
            records.push(Record {
                chain: littered(random, chain),
                room,
            });
        }
    }
}

/// Every limit as n, with room for nothing, for a header, and around what 1, 16 and 17 queues need.
fn counts(random: &mut Random, records: &mut Vec<Record>) {
    for n in LIMITS {
        for room in [0, 20, 43, 44, 403, 404, 428, MAX_FILE] {
            let chain = valid(random, MAX_QUEUES);
            records.push(Record {
                chain: Chain { n, ..chain },
                room,
            });
        }
    }
}

/// Every limit in every word behind n, those past n rows too, alone and with a consume above its
/// threshold, with enough room and with a byte too little.
fn fields(random: &mut Random, records: &mut Vec<Record>) {
    for n in COUNTS {
        for index in 1..WORDS {
            for value in LIMITS {
                let mut chain = littered(random, wide(n));
                *word(&mut chain, index) = value;
                let mut both = chain;
                put_threshold(&mut both, 0, above_threshold(random));
                for room in [packed_length(n), packed_length(n) - 1] {
                    records.push(Record { chain, room });
                    records.push(Record { chain: both, room });
                }
            }
        }
    }
}

/// A consume below, at and above its threshold in every row, alone and with one in the last row.
fn consumption(random: &mut Random, records: &mut Vec<Record>) {
    for n in COUNTS {
        for row in 0..n {
            for words in AROUND_THRESHOLD {
                let mut chain = littered(random, wide(n));
                put_threshold(&mut chain, row, words);
                let mut both = chain;
                put_threshold(&mut both, n - 1, above_threshold(random));
                for room in [packed_length(n), packed_length(n) - 1] {
                    records.push(Record { chain, room });
                    records.push(Record { chain: both, room });
                }
            }
        }
    }
}
