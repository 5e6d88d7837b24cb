//! Words: how names are hashed, and what a name is.
use std::collections::HashMap;
use std::hash::{BuildHasherDefault, Hasher};

/// A multiplicative hasher over words of eight bytes. A product's upper bits hang on the whole word, so they are turned to where a map looks.
#[derive(Default, Clone, Copy)]
pub struct Quick(u64);

impl Hasher for Quick {
    fn write(&mut self, bytes: &[u8]) {
        let mut rest = bytes;
        while rest.len() >= 8 {
            self.mix(u64::from_le_bytes(rest[..8].try_into().unwrap()));
            rest = &rest[8..];
        }
        let mut last = rest.len() as u64;
        for b in rest {
            last = last << 8 | u64::from(*b);
        }
        self.mix(last);
    }

    fn finish(&self) -> u64 {
        self.0.rotate_left(26)
    }
}

impl Quick {
    fn mix(&mut self, word: u64) {
        self.0 = (self.0.rotate_left(5) ^ word).wrapping_mul(0x517c_c1b7_2722_0a95);
    }
}

pub type Map<K, V> = HashMap<K, V, BuildHasherDefault<Quick>>;

pub type Fault = String;

pub fn is_name(word: &[u8]) -> bool {
    !word.is_empty() && word[word.len() - 1] != b'\\' && word.iter().all(|b| *b > b' ' && *b != 0x7f && *b != b'#')
}
