//! What is sent.

use std::sync::Arc;

/// A message, of which each receiver gets a clone.
pub trait Message: Clone + 'static {
    /// One of which others are made.
    fn first() -> Self;

    /// The message of this number. Only numbers differ; of the others it is a clone.
    fn of(&self, number: u64) -> Self;

    /// What it adds to a checksum.
    fn weight(&self) -> u64;
}

impl Message for u64 {
    fn first() -> u64 {
        0
    }
    #[inline]
    fn of(&self, number: u64) -> u64 {
        number
    }
    #[inline]
    fn weight(&self) -> u64 {
        *self
    }
}

/// A text of 32 bytes.
impl Message for String {
    fn first() -> String {
        "0123456789abcdef0123456789abcdef".to_string()
    }
    #[inline]
    fn of(&self, _number: u64) -> String {
        self.clone()
    }
    #[inline]
    fn weight(&self) -> u64 {
        self.len() as u64
    }
}

impl Message for Arc<u64> {
    fn first() -> Arc<u64> {
        Arc::new(1)
    }
    #[inline]
    fn of(&self, _number: u64) -> Arc<u64> {
        self.clone()
    }
    #[inline]
    fn weight(&self) -> u64 {
        **self
    }
}
