//! Chains to compare the analysis on, and files and room to compare the report on: of all rates and
//! loads, at the limits, past them and damaged.

use crate::files;
use crate::records::{littered, place_fault};
use compare::chains::{valid, within};
use compare::loaded::{accepted, load, load_any, lone, slow};
use compare::packed::packed_file;
use compare::random::Random;
use compare::rates::{rates, turns, Rate};
use compare::steered::{at_edge, past, uneven, walk, widest, Side, EDGES, FIRST_LARGE_X, Y_EDGES};
use compare::MAX_REPORT_LENGTH;
use yardstick::{factory, report, Chain, MAX_QUEUES, TICKS};

/// The chains of each kind at each edge and past it, for every n and node.
const REPEATS: usize = 8;

/// The fewest queues with which the busy ticks of a cycle may pass 64 bits: with two, N_1 fires at
/// most 65,535 x 65,535 times in a cycle, N_2 as often, and each time for 1,000,000 ticks. With
/// three, N_2 may fire 65,535 x 65,535 times a tick while the cycle has 65,521 ticks.
const FIRST_WIDE: usize = 3;

/// A file and the bytes that are lent for the report on it.
pub struct Request {
    pub file: Vec<u8>,
    pub room: usize,
}

/// A random chain of n queues with litter past them, in one of eight cases with one to three
/// faults.
pub fn any(random: &mut Random, n: usize) -> Chain {
    let chain = undamaged(random, n);
    let mut chain = littered(random, chain);
    if random.below(8) == 0 {
        for _ in 0..=random.below(3) {
            place_fault(random, &mut chain, n);
        }
    }
    chain
}

/// A random chain of n queues that passes checks 2, 4 and 5.
fn undamaged(random: &mut Random, n: usize) -> Chain {
    let node = 1 + random.below(n);
    match random.below(16) {
        0..=4 => accepted(random, n),
        5..=7 => full(random, n),
        8 | 9 => on_edge(random, n, node),
        10 => far_past(random, n, node),
        11..=13 => wrapping(random, n),
        14 => within_limit(random, n),
        _ => valid(random, n),
    }
}

/// A chain with a load of 1, or a tick less or more.
fn full(random: &mut Random, n: usize) -> Chain {
    let mut chain = slow(random, n);
    let above = random.pick(&[0, 1, 1, 2, 2]);
    load(random, &mut chain, |cycle| {
        let busy = cycle + above - 1;
        busy..=busy
    });
    chain
}

/// A chain that comes to an edge of the limit at a node, with a load of 1, of up to 1, or any.
fn on_edge(random: &mut Random, n: usize, node: usize) -> Chain {
    let edge = if node < FIRST_LARGE_X {
        random.pick(&Y_EDGES)
    } else {
        random.pick(&EDGES)
    };
    let mut chain = at_edge(random, n, node, edge);
    match random.below(3) {
        0 => load(random, &mut chain, |cycle| cycle..=cycle),
        1 => load(random, &mut chain, |cycle| 0..=cycle),
        _ => load_any(random, &mut chain),
    }
    chain
}

/// A chain that passes the limit far at a node.
fn far_past(random: &mut Random, n: usize, node: usize) -> Chain {
    let side = if node < FIRST_LARGE_X {
        Side::Y
    } else {
        random.pick(&[Side::X, Side::Y, Side::Both])
    };
    let mut chain = past(random, n, node, side);
    load_any(random, &mut chain);
    chain
}

/// An overloaded chain whose busy ticks would be no more than the cycle if they were cut to 32 or
/// to 64 bits.
fn wrapping(random: &mut Random, n: usize) -> Chain {
    let mut chain = uneven(random, n);
    let turns: u128 = turns(&rates(&chain)).into_iter().sum();
    let most = turns * u128::from(*TICKS.end());
    let width = match most >> 64 {
        0 => 32,
        _ => random.pick(&[32, 64, 64]),
    };
    let times = within(random, 1..=(most >> width).clamp(1, 1_000) as u32);
    let busy = u128::from(times) << width;
    load(random, &mut chain, |cycle| busy..=busy + cycle);
    chain
}

/// A chain whose rates are within the limit, with any execution times.
fn within_limit(random: &mut Random, n: usize) -> Chain {
    let period = within(random, TICKS);
    let mut chain = walk(random, n, period, Rate::within_limit);
    load_any(random, &mut chain);
    chain
}

/// An accepted chain of n queues, at least 3, whose sink has the widest x and y.
fn accepted_widest(random: &mut Random, n: usize) -> Chain {
    let mut chain = widest(random, n);
    load(random, &mut chain, |cycle| 0..=cycle);
    chain
}

/// The factory chains, chains at every edge of the limit and past it at every node, accepted chains
/// with the widest x, and chains one of whose nodes alone is busy for more than 64 bits hold.
pub fn limits(random: &mut Random) -> Vec<Chain> {
    let mut chains: Vec<Chain> = (0..3).map(|number| factory(number).chain).collect();
    for n in 1..=MAX_QUEUES {
        for node in 1..=n {
            for _ in 0..REPEATS {
                chains.push(on_edge(random, n, node));
                chains.push(far_past(random, n, node));
            }
        }
        if n >= FIRST_LARGE_X {
            chains.extend((0..REPEATS).map(|_| accepted_widest(random, n)));
        }
        if n >= FIRST_WIDE {
            chains.extend((0..REPEATS).map(|_| lone(random, n)));
        }
    }
    chains
}

/// A random file of a chain of n queues, in one of eight cases damaged, with random room; or any
/// random file.
pub fn any_request(random: &mut Random, n: usize) -> Request {
    let chain = undamaged(random, n);
    let file = match random.below(8) {
        0 => files::damaged(random, &chain),
        1 => files::any(random),
        _ => files::of(random, &chain),
    };
    let room = any_room(random, needed(&file));
    Request { file, room }
}

/// The packed file of a chain with enough room.
pub fn packed_request(random: &mut Random, chain: &Chain) -> Request {
    Request {
        file: packed_file(chain),
        room: enough_room(random),
    }
}

/// The bytes of the report on a file; 0 if there is none.
fn needed(file: &[u8]) -> usize {
    report(file, &mut [0; MAX_REPORT_LENGTH]).length as usize
}

/// Random room, more often than not close to what is needed or enough for every report.
fn any_room(random: &mut Random, needed: usize) -> usize {
    match random.below(8) {
        0 | 1 => needed,
        2 => needed.saturating_sub(1),
        3 => 0,
        4 => needed + random.below(64),
        5 => random.below(MAX_REPORT_LENGTH),
        _ => enough_room(random),
    }
}

/// Room that every report fits: the header's, which no report fills, a byte less, or more.
fn enough_room(random: &mut Random) -> usize {
    match random.below(8) {
        0 | 1 => MAX_REPORT_LENGTH - 1,
        2 | 3 => MAX_REPORT_LENGTH,
        4 | 5 => MAX_REPORT_LENGTH + 1,
        _ => MAX_REPORT_LENGTH + random.below(512),
    }
}

/// Every room from none to more than the header's, for every n, and far more; and the files at the
/// limits with enough room.
pub fn request_limits(random: &mut Random) -> Vec<Request> {
    let mut requests = Vec::new();
    for n in 1..=MAX_QUEUES {
        let chain = accepted(random, n);
        let file = files::of(random, &chain);
        for room in (0..=MAX_REPORT_LENGTH + 16).chain([4_096, 65_536]) {
            let file = file.clone();
            requests.push(Request { file, room });
        }
    }
    for file in files::limits(random) {
        let room = enough_room(random);
        requests.push(Request { file, room });
    }
    requests
}
