//! Stands in for `rustc_hash`: the standard maps with a cheap hash of whole numbers.
use std::collections::{HashMap, HashSet};
use std::hash::{BuildHasherDefault, Hasher};

#[derive(Default, Clone, Copy)]
pub struct NumberHasher(u64);

impl Hasher for NumberHasher {
    fn finish(&self) -> u64 {
        self.0.rotate_left(26)
    }

    fn write(&mut self, bytes: &[u8]) {
        for byte in bytes {
            self.write_u64(u64::from(*byte));
        }
    }

    fn write_u32(&mut self, n: u32) {
        self.write_u64(u64::from(n));
    }

    fn write_u64(&mut self, n: u64) {
        self.0 = self.0.wrapping_add(n).wrapping_mul(0x9e37_79b9_7f4a_7c15);
    }
}

pub type FxHashMap<K, V> = HashMap<K, V, BuildHasherDefault<NumberHasher>>;
pub type FxHashSet<K> = HashSet<K, BuildHasherDefault<NumberHasher>>;
