//! Stands in for `rolldown_utils`: a set of indices as bits.
use oxc_index::Idx;
use std::marker::PhantomData;

#[derive(Debug)]
pub struct IndexBitSet<I> {
    words: Vec<u64>,
    index: PhantomData<I>,
}

impl<I: Idx> IndexBitSet<I> {
    pub fn new(len: usize) -> Self {
        IndexBitSet {
            words: vec![0; len.div_ceil(64)],
            index: PhantomData,
        }
    }

    /// Whether the bit was not set before.
    pub fn set_bit(&mut self, at: I) -> bool {
        let word = &mut self.words[at.index() / 64];
        let bit = 1 << (at.index() % 64);
        let fresh = *word & bit == 0;
        *word |= bit;
        fresh
    }
}
