//! Reading and writing chain files.

use crate::chain::{
    check_consumption, check_fields, checked_count, checked_record, packed_length, Chain, Queue,
    Refusal, Tables, HEADER, NODE_ROW, QUEUE_ROW,
};

/// The longest file.
pub const MAX_FILE: usize = 4096;

/// A chain, or the number and place of a refusal beside a zero chain.
#[repr(C)]
#[derive(Clone, Copy, Debug, Default, PartialEq, Eq)]
pub struct ChainAnswer {
    pub number: u32,
    pub place: u32,
    pub chain: Chain,
}

/// The bytes written, or the number and place of a refusal beside a zero length.
#[repr(C)]
#[derive(Clone, Copy, Debug, Default, PartialEq, Eq)]
pub struct LengthAnswer {
    pub number: u32,
    pub place: u32,
    pub length: u64,
}

impl From<Result<usize, Refusal>> for LengthAnswer {
    /// The answer of a call that wrote so many bytes, or that was refused.
    fn from(written: Result<usize, Refusal>) -> Self {
        match written {
            Ok(length) => LengthAnswer {
                number: 0,
                place: 0,
                length: length as u64,
            },
            Err(Refusal { number, place }) => LengthAnswer {
                number,
                place,
                length: 0,
            },
        }
    }
}

/// What a file that passes its checks is made of.
struct Parts<'a> {
    n: usize,
    period: u32,
    queues: &'a [u8],
    nodes: &'a [u8],
}

/// The chain of a file, after checks 1 to 5. Slots past n are zero.
pub fn read(file: &[u8]) -> ChainAnswer {
    match checked_file(file) {
        Ok(parts) => taken(parts),
        Err(Refusal { number, place }) => ChainAnswer {
            number,
            place,
            chain: Chain::default(),
        },
    }
}

/// The packed file of a chain in the first 20+24n bytes of `out`, after checks 2, 4, 5 and 10.
pub fn write(chain: &Chain, out: &mut [u8]) -> LengthAnswer {
    let written = checked_record(chain).and_then(|(n, tables)| {
        let out = room(out, packed_length(n))?;
        put_file(chain, n, tables, out);
        Ok(out.len())
    });
    LengthAnswer::from(written)
}

/// Check 10: the first bytes of `out` that so many bytes are written to.
pub(crate) fn room(out: &mut [u8], length: usize) -> Result<&mut [u8], Refusal> {
    out.get_mut(..length).ok_or(Refusal {
        number: 10,
        place: length as u32,
    })
}

/// Checks 1 to 5 of a file in order. The answer is what it is made of.
fn checked_file(file: &[u8]) -> Result<Parts<'_>, Refusal> {
    let [n, period, queues, nodes] = header_of(file)?;
    let n = checked_count(n)?;
    let tables = checked_tables(file.len(), n, queues, nodes)?;
    let queues = &file[tables.queues..][..QUEUE_ROW * n];
    let nodes = &file[tables.nodes..][..NODE_ROW * n];
    check_fields(period, queue_rows(queues), node_rows(nodes), tables)?;
    check_consumption(queue_rows(queues), tables)?;
    Ok(Parts {
        n,
        period,
        queues,
        nodes,
    })
}

/// Check 1: a length from 20 to 4,096 that is the total word. The answer is the header's other
/// words.
fn header_of(file: &[u8]) -> Result<[u32; 4], Refusal> {
    let refusal = Refusal {
        number: 1,
        place: 0,
    };
    let header = file.first_chunk::<HEADER>().ok_or(refusal)?;
    let [n, period, queues, nodes, total] = five_words(header);
    if file.len() > MAX_FILE || total as usize != file.len() {
        return Err(refusal);
    }
    Ok([n, period, queues, nodes])
}

/// Check 3: the queue table's offset, then the node table's, then that the two share no byte.
fn checked_tables(length: usize, n: usize, queues: u32, nodes: u32) -> Result<Tables, Refusal> {
    let (queue_bytes, node_bytes) = (QUEUE_ROW * n, NODE_ROW * n);
    let (queues, nodes) = (queues as usize, nodes as usize);
    if !fits(queues, queue_bytes, length) {
        return Err(Refusal {
            number: 3,
            place: 8,
        });
    }
    let overlap = queues < nodes + node_bytes && nodes < queues + queue_bytes;
    if !fits(nodes, node_bytes, length) || overlap {
        return Err(Refusal {
            number: 3,
            place: 12,
        });
    }
    Ok(Tables { queues, nodes })
}

/// Whether a table at an offset is aligned, behind the header and within the file. An offset has 32
/// bits and `usize` 64: no sum wraps.
fn fits(offset: usize, bytes: usize, length: usize) -> bool {
    offset.is_multiple_of(4) && offset >= HEADER && offset + bytes <= length
}

/// The answer with the chain of a file: the words of its tables in their slots, zeros past n.
fn taken(parts: Parts) -> ChainAnswer {
    let mut queues = queue_rows(parts.queues);
    let mut nodes = node_rows(parts.nodes);
    ChainAnswer {
        number: 0,
        place: 0,
        chain: Chain {
            n: parts.n as u32,
            period: parts.period,
            queues: std::array::from_fn(|_| queues.next().unwrap_or_default()),
            work: std::array::from_fn(|_| nodes.next().unwrap_or_default()),
        },
    }
}

/// The rows of a queue table.
fn queue_rows(table: &[u8]) -> impl Iterator<Item = Queue> + '_ {
    table.as_chunks::<QUEUE_ROW>().0.iter().map(queue_of)
}

/// The execution times of a node table.
fn node_rows(table: &[u8]) -> impl Iterator<Item = u32> + '_ {
    let rows = table.as_chunks::<NODE_ROW>().0.iter();
    rows.map(|row| u32::from_le_bytes(*row))
}

/// The queue of a row.
#[inline]
fn queue_of(row: &[u8; QUEUE_ROW]) -> Queue {
    let [produce, threshold, consume, capacity, reserved] = five_words(row);
    Queue {
        produce,
        threshold,
        consume,
        capacity,
        reserved,
    }
}

/// Puts the packed file of a checked chain into as many bytes as it has.
fn put_file(chain: &Chain, n: usize, tables: Tables, out: &mut [u8]) {
    let header = [
        chain.n,
        chain.period,
        tables.queues as u32,
        tables.nodes as u32,
        out.len() as u32,
    ];
    put_words(&mut out[..HEADER], header);
    let rows = out[tables.queues..tables.nodes].chunks_exact_mut(QUEUE_ROW);
    for (row, queue) in rows.zip(&chain.queues[..n]) {
        let fields = [
            queue.produce,
            queue.threshold,
            queue.consume,
            queue.capacity,
            queue.reserved,
        ];
        put_words(row, fields);
    }
    let rows = out[tables.nodes..].chunks_exact_mut(NODE_ROW);
    for (row, &work) in rows.zip(&chain.work[..n]) {
        put_words(row, [work]);
    }
}

/// The five little-endian words of a header or a queue row.
#[inline]
fn five_words(bytes: &[u8; 20]) -> [u32; 5] {
    let (words, _) = bytes.as_chunks::<4>();
    std::array::from_fn(|i| u32::from_le_bytes(words[i]))
}

/// Puts words at the start of some bytes, little-endian.
fn put_words<const COUNT: usize>(bytes: &mut [u8], words: [u32; COUNT]) {
    for (bytes, word) in bytes.chunks_exact_mut(4).zip(words) {
        bytes.copy_from_slice(&word.to_le_bytes());
    }
}
