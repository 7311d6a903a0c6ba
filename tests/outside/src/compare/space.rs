//! A lent space, filled beforehand so that a byte written where none should be is seen.

use crate::generate::random::Random;

pub struct Space {
    before: Vec<u8>,
    pub bytes: Vec<u8>,
}

impl Space {
    pub fn new(random: &mut Random, length: usize) -> Space {
        let before = random.bytes(length);
        Space { bytes: before.clone(), before }
    }

    /// What the space holds after the text, and nothing else, was written to it.
    pub fn with(&self, text: &[u8]) -> Vec<u8> {
        [text, &self.before[text.len()..]].concat()
    }
}
