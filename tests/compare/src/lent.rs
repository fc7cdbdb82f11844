//! Memory to lend to a call.

use compare::random::Random;

/// The fewest bytes before what is lent and the bytes behind it; also the alignments that it has.
const MARGIN: usize = 16;

/// Memory to lend, in the middle of random bytes and at any alignment.
#[derive(Clone)]
pub struct Lent {
    /// What is lent and the bytes around it, the first at a multiple of 16.
    pub memory: Vec<u8>,
    before: usize,
    length: usize,
}

impl Lent {
    /// Random bytes to lend.
    pub fn random(random: &mut Random, length: usize) -> Self {
        let before = MARGIN + random.below(MARGIN);
        Lent {
            memory: random.bytes(before + length + MARGIN),
            before,
            length,
        }
    }

    /// A file to lend.
    pub fn file(random: &mut Random, file: &[u8]) -> Self {
        let mut lent = Lent::random(random, file.len());
        lent.bytes_mut().copy_from_slice(file);
        lent
    }

    /// What is lent.
    pub fn bytes(&self) -> &[u8] {
        &self.memory[self.before..][..self.length]
    }

    /// What is lent, to be changed.
    pub fn bytes_mut(&mut self) -> &mut [u8] {
        &mut self.memory[self.before..][..self.length]
    }

    /// How many bytes lie before what is lent, how many are lent, and how many lie behind.
    pub fn lengths(&self) -> [usize; 3] {
        [self.before, self.length, MARGIN]
    }
}
