//! The packed file of a chain, put together as the paper says and by no call.

use yardstick::{Chain, Queue, MAX_QUEUES};

/// The packed file of a chain; one whose n is past the slots has the rows of all of them.
pub fn packed_file(chain: &Chain) -> Vec<u8> {
    let n = (chain.n as usize).min(MAX_QUEUES);
    let queues = chain.queues[..n].iter().flat_map(row_words);
    let nodes = chain.work[..n].iter().copied();
    packed(chain.n, chain.period, &bytes(queues), &bytes(nodes))
}

/// The packed form of a valid file: its own tables behind a new header.
pub fn packed_form(file: &[u8]) -> Vec<u8> {
    let word = |at: usize| u32::from_le_bytes([file[at], file[at + 1], file[at + 2], file[at + 3]]);
    let n = word(0) as usize;
    let queues = &file[word(8) as usize..][..20 * n];
    let nodes = &file[word(12) as usize..][..4 * n];
    packed(word(0), word(4), queues, nodes)
}

/// The words of a queue row.
pub fn row_words(queue: &Queue) -> [u32; 5] {
    [
        queue.produce,
        queue.threshold,
        queue.consume,
        queue.capacity,
        queue.reserved,
    ]
}

/// The packed file of two tables: n, y, 20, where the queue table ends, where the node table ends,
/// the queue table's bytes, the node table's bytes.
fn packed(n: u32, period: u32, queues: &[u8], nodes: &[u8]) -> Vec<u8> {
    let queues_end = 20 + queues.len() as u32;
    let nodes_end = queues_end + nodes.len() as u32;
    let header = [n, period, 20, queues_end, nodes_end];
    [&bytes(header), queues, nodes].concat()
}

/// Words as bytes, little-endian.
fn bytes(words: impl IntoIterator<Item = u32>) -> Vec<u8> {
    words.into_iter().flat_map(u32::to_le_bytes).collect()
}
