//! A record's bytes, which begin where a cache line does: so every run, and every row of it, has them in the same way.

use std::ops::{Deref, DerefMut};

use oracle::layout::RECORD_SIZE;

/// As many bytes as a record has.
#[derive(Clone, PartialEq, Eq)]
#[repr(align(64))]
struct Aligned([u8; RECORD_SIZE]);

/// A record's bytes.
#[derive(Clone, PartialEq, Eq)]
pub struct Bytes(Box<Aligned>);

impl Bytes {
    /// All bytes 0.
    pub fn zeros() -> Bytes {
        Bytes(Box::new(Aligned([0; RECORD_SIZE])))
    }
}

impl Deref for Bytes {
    type Target = [u8];

    fn deref(&self) -> &[u8] {
        &self.0 .0
    }
}

impl DerefMut for Bytes {
    fn deref_mut(&mut self) -> &mut [u8] {
        &mut self.0 .0
    }
}
