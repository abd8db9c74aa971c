//! The one name of `rustc-hash` that the original uses: a `HashMap` with a
//! quick hasher. Which hasher it is changes the speed only.

use std::collections::HashMap;
use std::hash::{BuildHasherDefault, Hasher};

pub type FxHashMap<K, V> = HashMap<K, V, BuildHasherDefault<FxHasher>>;

/// Mixes one word at a time by an odd multiplier.
#[derive(Clone, Copy, Debug, Default)]
pub struct FxHasher {
    state: u64,
}

impl Hasher for FxHasher {
    fn write(&mut self, bytes: &[u8]) {
        for &byte in bytes {
            self.write_u64(u64::from(byte));
        }
    }

    fn write_u64(&mut self, word: u64) {
        self.state = (self.state.rotate_left(29) ^ word).wrapping_mul(0xd134_2543_de82_ef95);
    }

    fn finish(&self) -> u64 {
        self.state ^ (self.state >> 32)
    }
}
