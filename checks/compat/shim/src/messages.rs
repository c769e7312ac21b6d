//! The messages of one channel, by the numbers under which the program has them.
use std::collections::{HashMap, HashSet};
use std::mem;

#[derive(Debug)]
pub(crate) struct Messages<T> {
    next: u64,
    kept: HashMap<u64, T>,
    /// Those that the channel keeps no more, and that nobody took yet.
    gone: HashMap<u64, T>,
}

impl<T> Messages<T> {
    pub(crate) fn new() -> Messages<T> {
        Messages {
            next: 0,
            kept: HashMap::new(),
            gone: HashMap::new(),
        }
    }

    /// Adds a message that is offered, and gives its number.
    pub(crate) fn add(&mut self, msg: T) -> u64 {
        let number = self.next;
        self.next += 1;
        self.kept.insert(number, msg);
        number
    }

    /// Keeps what is in the channel's queue after a call.
    pub(crate) fn keep_only(&mut self, queue: &HashSet<u64>) {
        let (kept, gone): (HashMap<_, _>, HashMap<_, _>) = mem::take(&mut self.kept)
            .into_iter()
            .partition(|(number, _)| queue.contains(number));
        self.kept = kept;
        self.gone.extend(gone);
    }

    /// Takes a message that came back, or that was dropped.
    pub(crate) fn take(&mut self, number: &str) -> Option<T> {
        self.gone.remove(&number.parse().ok()?)
    }

    /// Takes all that nobody took.
    pub(crate) fn take_rest(&mut self) -> HashMap<u64, T> {
        mem::take(&mut self.gone)
    }
}

impl<T: Clone> Messages<T> {
    /// A message that is received: itself if the channel keeps it no more, else a clone.
    pub(crate) fn receive(&mut self, number: &str) -> Option<T> {
        self.take(number)
            .or_else(|| self.kept.get(&number.parse().ok()?).cloned())
    }
}
