//! Chain files to compare on: both sides of every limit, and random ones, valid and damaged.

use compare::chains::{
    above_threshold, any_count, any_word, bad_field, outside, valid, wide, AROUND_THRESHOLD,
    COUNTS, LIMITS,
};
use compare::packed::row_words;
use compare::random::Random;
use yardstick::{packed_length, Chain, HEADER, MAX_FILE, MAX_QUEUES, NODE_ROW, QUEUE_ROW, TICKS};

/// A file and where its tables are.
struct Sample {
    bytes: Vec<u8>,
    n: usize,
    queues: usize,
    nodes: usize,
}

impl Sample {
    /// The file of a chain with its tables at two offsets; bytes in neither header nor table are
    /// random.
    fn new(random: &mut Random, chain: &Chain, queues: usize, nodes: usize, length: usize) -> Self {
        let n = chain.n as usize;
        let mut sample = Sample {
            bytes: random.bytes(length),
            n,
            queues,
            nodes,
        };
        sample.put_all(0, &[chain.n, chain.period, queues as u32, nodes as u32]);
        sample.tell_length();
        for (i, queue) in chain.queues[..n].iter().enumerate() {
            sample.put_all(queues + QUEUE_ROW * i, &row_words(queue));
        }
        sample.put_all(nodes, &chain.work[..n]);
        sample
    }

    /// The packed file of a chain.
    fn packed(random: &mut Random, chain: &Chain) -> Self {
        let n = chain.n as usize;
        Sample::new(
            random,
            chain,
            HEADER,
            HEADER + QUEUE_ROW * n,
            packed_length(n),
        )
    }

    /// A file of a chain with its tables in either order, gaps before them and bytes behind them.
    fn scattered(random: &mut Random, chain: &Chain) -> Self {
        let n = chain.n as usize;
        let first = HEADER + any_gap(random);
        let gap = any_gap(random);
        let (queues, nodes) = match random.below(2) {
            0 => (first, first + QUEUE_ROW * n + gap),
            _ => (first + NODE_ROW * n + gap, first),
        };
        let end = (queues + QUEUE_ROW * n).max(nodes + NODE_ROW * n);
        let length = match random.below(8) {
            0 => MAX_FILE,
            1..=3 => end + random.below(64),
            _ => end,
        };
        Sample::new(random, chain, queues, nodes, length)
    }

    /// A file of a valid chain, packed or not.
    fn of(random: &mut Random, chain: &Chain) -> Self {
        match random.below(4) {
            0 => Sample::packed(random, chain),
            _ => Sample::scattered(random, chain),
        }
    }

    /// Places one to three faults.
    fn damage(&mut self, random: &mut Random) {
        for _ in 0..=random.below(3) {
            random.pick(&FAULTS).place(random, self);
        }
    }

    /// Puts a word at an offset if the file has it.
    fn put(&mut self, at: usize, word: u32) {
        if let Some(bytes) = self.bytes.get_mut(at..at + 4) {
            bytes.copy_from_slice(&word.to_le_bytes());
        }
    }

    /// Puts words one after the other.
    fn put_all(&mut self, at: usize, words: &[u32]) {
        for (i, &word) in words.iter().enumerate() {
            self.put(at + 4 * i, word);
        }
    }

    /// Cuts the file, or makes it longer by random bytes.
    fn resize(&mut self, random: &mut Random, length: usize) {
        let more = random.bytes(length.saturating_sub(self.bytes.len()));
        self.bytes.truncate(length);
        self.bytes.extend_from_slice(&more);
    }

    /// Makes the total word the length.
    fn tell_length(&mut self) {
        self.put(16, self.bytes.len() as u32);
    }

    /// The offset of a field of a queue row.
    fn field(&self, row: usize, field: usize) -> usize {
        self.queues + QUEUE_ROW * row + 4 * field
    }

    /// The offset of an execution time.
    fn work(&self, row: usize) -> usize {
        self.nodes + NODE_ROW * row
    }

    /// The offsets of all words that have a range: the period, the queue table, the node table.
    fn ranged(&self) -> Vec<usize> {
        let fields = (0..self.n).flat_map(|row| (0..5).map(move |field| (row, field)));
        let queue_table = fields.map(|(row, field)| self.field(row, field));
        let node_table = (0..self.n).map(|row| self.work(row));
        std::iter::once(4)
            .chain(queue_table)
            .chain(node_table)
            .collect()
    }
}

/// The bytes between two parts of a file: often none, a multiple of 4.
fn any_gap(random: &mut Random) -> usize {
    match random.below(8) {
        0 => 4 * random.below(256),
        1..=3 => 4 * random.below(8),
        _ => 0,
    }
}

/// A fault that is placed on purpose.
#[derive(Clone, Copy)]
enum Fault {
    /// The file ends early and its total word stays.
    Cut,
    /// The file ends early and its total word says so.
    CutAndTold,
    /// The file has bytes behind its end and its total word stays.
    Longer,
    /// The file is longer than any may be and its total word says so.
    TooLong,
    /// The total word is not the length.
    Total,
    /// n is 0 or above 16.
    Count,
    /// The queue table's offset is bad.
    QueueTable,
    /// The node table's offset is bad.
    NodeTable,
    /// The node table shares bytes with the queue table.
    Overlap,
    /// The period is out of range.
    Period,
    /// A field of a queue row is out of range.
    Field,
    /// An execution time is out of range.
    Work,
    /// A consume is above its threshold.
    Consume,
}

/// All faults.
const FAULTS: [Fault; 13] = [
    Fault::Cut,
    Fault::CutAndTold,
    Fault::Longer,
    Fault::TooLong,
    Fault::Total,
    Fault::Count,
    Fault::QueueTable,
    Fault::NodeTable,
    Fault::Overlap,
    Fault::Period,
    Fault::Field,
    Fault::Work,
    Fault::Consume,
];

impl Fault {
    /// Places the fault somewhere in a file.
    fn place(self, random: &mut Random, sample: &mut Sample) {
        let row = random.below(sample.n);
        let length = sample.bytes.len();
        match self {
            Fault::Cut => sample.bytes.truncate(random.below(length + 1)),
            Fault::CutAndTold => {
                sample.bytes.truncate(random.below(length + 1));
                sample.tell_length();
            }
            Fault::Longer => {
                let more = 1 + random.below(8);
                sample.resize(random, length + more);
            }
            Fault::TooLong => {
                let more = 1 + random.below(8);
                sample.resize(random, MAX_FILE + more);
                sample.tell_length();
            }
            Fault::Total => {
                let near = [length + 1, length.wrapping_sub(1), length + 65_536, 0];
                let total = random.pick(&near) as u32;
                sample.put(16, total);
            }
            Fault::Count => {
                let n = outside(random, 1..=MAX_QUEUES as u32);
                sample.put(0, n);
            }
            Fault::QueueTable => {
                let offset = bad_offset(random, sample.queues, QUEUE_ROW * sample.n, length);
                sample.put(8, offset);
            }
            Fault::NodeTable => {
                let offset = bad_offset(random, sample.nodes, NODE_ROW * sample.n, length);
                sample.put(12, offset);
            }
            Fault::Overlap => {
                let shared = 4 * (1 + random.below(6 * sample.n - 1));
                let end = sample.queues + QUEUE_ROW * sample.n;
                sample.put(12, end.wrapping_sub(shared) as u32);
            }
            Fault::Period => {
                let period = outside(random, TICKS);
                sample.put(4, period);
            }
            Fault::Field => {
                let field = random.below(5);
                let word = bad_field(random, field);
                sample.put(sample.field(row, field), word);
            }
            Fault::Work => {
                let work = outside(random, TICKS);
                sample.put(sample.work(row), work);
            }
            Fault::Consume => {
                let words = above_threshold(random);
                sample.put_all(sample.field(row, 1), &words);
            }
        }
    }
}

/// An offset for a table of so many bytes: not aligned, in the header, past the end, or past the
/// end of a word.
fn bad_offset(random: &mut Random, offset: usize, bytes: usize, length: usize) -> u32 {
    let step = 4 * random.below(8);
    match random.below(5) {
        0 => (offset + 1 + random.below(3)) as u32,
        1 => random.below(HEADER) as u32,
        2 => (length / 4 * 4 + 4 + step).saturating_sub(bytes) as u32,
        3 => (step as u32).wrapping_sub(bytes as u32),
        _ => any_word(random),
    }
}

/// A random file: valid, with one to three faults, with damaged bytes or words, or garbage.
pub fn any(random: &mut Random) -> Vec<u8> {
    let n = any_count(random);
    let chain = valid(random, n);
    let mut sample = Sample::of(random, &chain);
    match random.below(16) {
        0..=3 => {}
        4..=10 => sample.damage(random),
        11 | 12 => {
            for _ in 0..=random.below(3) {
                let at = random.below(sample.bytes.len());
                sample.bytes[at] = random.word() as u8;
            }
        }
        13 | 14 => {
            for _ in 0..=random.below(3) {
                let at = 4 * random.below(sample.bytes.len() / 4);
                let word = any_word(random);
                sample.put(at, word);
            }
        }
        _ => sample.bytes = garbage(random),
    }
    sample.bytes
}

/// A file of a valid chain, packed or not.
pub fn of(random: &mut Random, chain: &Chain) -> Vec<u8> {
    Sample::of(random, chain).bytes
}

/// A file of a valid chain with one to three faults.
pub fn damaged(random: &mut Random, chain: &Chain) -> Vec<u8> {
    let mut sample = Sample::of(random, chain);
    sample.damage(random);
    sample.bytes
}

/// Random bytes, in half of the cases with a header of random words that gets past the first check.
fn garbage(random: &mut Random) -> Vec<u8> {
    let length = random.below(200);
    let mut bytes = random.bytes(length);
    if length >= HEADER && random.below(2) == 0 {
        for at in (0..16).step_by(4) {
            bytes[at..at + 4].copy_from_slice(&any_word(random).to_le_bytes());
        }
        bytes[16..20].copy_from_slice(&(length as u32).to_le_bytes());
    }
    bytes
}

/// Both sides of every limit, one after the other.
pub fn limits(random: &mut Random) -> Vec<Vec<u8>> {
    let mut files = Vec::new();
    lengths(random, &mut files);
    totals(random, &mut files);
    counts(random, &mut files);
    offsets(random, &mut files);
    overlaps(random, &mut files);
    fields(random, &mut files);
    consumption(random, &mut files);
    files
}

/// Lengths around 20, around a packed file, around 4,096 and far longer, told right and wrong by
/// one; and tables that end with the file.
fn lengths(random: &mut Random, files: &mut Vec<Vec<u8>>) {
    let short =
        (0..=packed_length(1) + 8).chain([MAX_FILE - 1, MAX_FILE, MAX_FILE + 1, MAX_FILE + 4]);
    for length in short.chain([8_192, 65_536, 65_536 + packed_length(1), 1 << 20]) {
        for total in [length, length + 1, length.wrapping_sub(1), packed_length(1)] {
            let mut sample = Sample::packed(random, &wide(1));
            sample.resize(random, length);
            sample.put(16, total as u32);
            files.push(sample.bytes);
        }
    }
    for n in COUNTS {
        for length in MAX_FILE - 4..=MAX_FILE + 4 {
            let nodes = (length - NODE_ROW * n) / 4 * 4;
            files.push(Sample::new(random, &wide(n), nodes - QUEUE_ROW * n, nodes, length).bytes);
        }
    }
}

/// Total words that are not the length, with nothing else wrong.
fn totals(random: &mut Random, files: &mut Vec<Vec<u8>>) {
    for n in COUNTS {
        let length = packed_length(n) as u32;
        let near = [length - 1, length, length + 1, length + 4];
        for total in near
            .into_iter()
            .chain([length + 65_536, length + (1 << 31), length.swap_bytes()])
            .chain(LIMITS)
        {
            let mut sample = Sample::packed(random, &wide(n));
            sample.put(16, total);
            files.push(sample.bytes);
        }
    }
}

/// Every limit as n, in a file in which tables of 17 rows have room.
fn counts(random: &mut Random, files: &mut Vec<Vec<u8>>) {
    for n in LIMITS {
        let mut sample = Sample::new(random, &wide(MAX_QUEUES), HEADER, MAX_FILE / 2, MAX_FILE);
        sample.put(0, n);
        files.push(sample.bytes);
    }
}

/// Offsets of each table around the header, around the end of the file and around the end of a
/// word.
fn offsets(random: &mut Random, files: &mut Vec<Vec<u8>>) {
    for n in COUNTS {
        for length in [
            packed_length(n),
            packed_length(n) + 3,
            packed_length(n) + 40,
            MAX_FILE,
        ] {
            for (at, bytes) in [(8, QUEUE_ROW * n), (12, NODE_ROW * n)] {
                let wrapping = (0..=48).map(|i| i - bytes as i64);
                let ending = (-8..=8).map(|i| (length - bytes) as i64 + i);
                let leaving = (-8..=8).map(|i| length as i64 + i);
                for offset in (0..=48)
                    .chain(-48..0)
                    .chain(wrapping)
                    .chain(ending)
                    .chain(leaving)
                    .chain([1 << 31])
                {
                    let mut sample = Sample::packed(random, &wide(n));
                    sample.resize(random, length);
                    sample.tell_length();
                    sample.put(at, offset as u32);
                    files.push(sample.bytes);
                }
            }
        }
    }
}

/// Each table moved byte by byte from before the other to behind it: apart, touching, overlapping
/// by part, with the same start, one inside the other.
fn overlaps(random: &mut Random, files: &mut Vec<Vec<u8>>) {
    for n in COUNTS {
        let (queue_bytes, node_bytes) = (QUEUE_ROW * n, NODE_ROW * n);
        let length = packed_length(n) + queue_bytes + 40;
        let fixed_queues = HEADER + node_bytes + 8;
        for nodes in HEADER..fixed_queues + queue_bytes + 8 {
            files.push(Sample::new(random, &wide(n), fixed_queues, nodes, length).bytes);
        }
        let fixed_nodes = HEADER + queue_bytes + 8;
        for queues in HEADER..fixed_nodes + node_bytes + 8 {
            files.push(Sample::new(random, &wide(n), queues, fixed_nodes, length).bytes);
        }
    }
}

/// Every limit in every word that has a range, alone and with a consume above its threshold in the
/// first row.
fn fields(random: &mut Random, files: &mut Vec<Vec<u8>>) {
    for n in COUNTS {
        for at in 0..1 + 6 * n {
            for word in LIMITS {
                let mut sample = Sample::scattered(random, &wide(n));
                sample.put(sample.ranged()[at], word);
                files.push(sample.bytes.clone());
                sample.put_all(sample.field(0, 1), &[1, 2]);
                files.push(sample.bytes);
            }
        }
    }
}

/// A consume below, at and above its threshold in every row, alone and with one in the last row.
fn consumption(random: &mut Random, files: &mut Vec<Vec<u8>>) {
    for n in COUNTS {
        for row in 0..n {
            for words in AROUND_THRESHOLD {
                let mut sample = Sample::scattered(random, &wide(n));
                sample.put_all(sample.field(row, 1), &words);
                files.push(sample.bytes.clone());
                sample.put_all(sample.field(n - 1, 1), &[1, 2]);
                files.push(sample.bytes);
            }
        }
    }
}
