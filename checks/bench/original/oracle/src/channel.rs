//! A channel of async-broadcast with its handles.
//!
//! With its last handle the crate's channel is gone. The port's state still answers then, so this
//! one goes on as a channel that is closed and empty, with handles of nothing.

use async_broadcast::{broadcast, InactiveReceiver, Receiver, Sender};
use std::collections::BTreeMap;

/// A handle, or none where the channel was gone when it was made.
pub type Handle<H> = Option<H>;

pub struct Channel {
    pub senders: Vec<Handle<Sender<u64>>>,
    pub receivers: BTreeMap<Vec<u8>, Handle<Receiver<u64>>>,
    pub inactive: Vec<Handle<InactiveReceiver<u64>>>,
    /// The greatest capacity that it had.
    room: usize,
}

/// What the first handle that there is answers, or another value where there is none.
macro_rules! ask {
    ($channel:expr, $handle:ident => $asked:expr, $none:expr) => {
        if let Some($handle) = $channel.senders.iter_mut().flatten().next() {
            $asked
        } else if let Some($handle) = $channel.receivers.values_mut().flatten().next() {
            $asked
        } else if let Some($handle) = $channel.inactive.iter_mut().flatten().next() {
            $asked
        } else {
            $none
        }
    };
}

/// Whether there is memory for so many messages. The crate itself panics or aborts where there is
/// none.
pub fn is_room(capacity: usize) -> bool {
    let mut probe: Vec<(u64, usize)> = Vec::new();
    probe.try_reserve_exact(capacity).is_ok()
}

impl Channel {
    /// A new channel with a sender, and a receiver that is called `r1`.
    pub fn new(capacity: usize) -> Channel {
        let (sender, receiver) = broadcast(capacity);
        Channel {
            senders: vec![Some(sender)],
            receivers: BTreeMap::from([(b"r1".to_vec(), Some(receiver))]),
            inactive: Vec::new(),
            room: capacity,
        }
    }

    pub fn sender(&self) -> Option<&Sender<u64>> {
        self.senders.iter().flatten().next()
    }

    /// A receiver that gets only what comes later.
    pub fn new_receiver(&self) -> Handle<Receiver<u64>> {
        let of_sender = || Some(self.sender()?.new_receiver());
        let of_receiver = || Some(self.receivers.values().flatten().next()?.new_receiver());
        let of_inactive = || Some(self.inactive.iter().flatten().next()?.activate_cloned());
        of_sender().or_else(of_receiver).or_else(of_inactive)
    }

    pub fn new_sender(&self) -> Handle<Sender<u64>> {
        let of_sender = || self.sender().cloned();
        let of_receiver = || Some(self.receivers.values().flatten().next()?.new_sender());
        // Without a sender it is closed, so that a receiver that comes and goes changes nothing.
        let of_inactive = || {
            let receiver = self.inactive.iter().flatten().next()?.activate_cloned();
            Some(receiver.new_sender())
        };
        of_sender().or_else(of_receiver).or_else(of_inactive)
    }

    /// Whether it was open.
    pub fn close(&mut self) -> bool {
        ask!(self, handle => handle.close(), false)
    }

    pub fn len(&mut self) -> usize {
        ask!(self, handle => handle.len(), 0)
    }

    /// Whether there is memory for this capacity. If so, it is set.
    pub fn set_capacity(&mut self, capacity: usize) -> bool {
        if capacity > self.room && !is_room(capacity) {
            return false;
        }
        self.room = self.room.max(capacity);
        ask!(self, handle => handle.set_capacity(capacity), ());
        true
    }

    pub fn set_overflow(&mut self, overflow: bool) {
        ask!(self, handle => handle.set_overflow(overflow), ());
    }

    pub fn set_await_active(&mut self, await_active: bool) {
        ask!(self, handle => handle.set_await_active(await_active), ());
    }
}
