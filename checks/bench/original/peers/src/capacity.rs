//! Capacities that are changed.

use crate::channel::Channel;
use crate::original::Original;
use async_broadcast::{Receiver, Sender};

/// A channel in which so many messages wait.
fn filled(capacity: u64, queued: u64) -> (Sender<u64>, Receiver<u64>) {
    let (sender, receiver) = async_broadcast::broadcast(capacity as usize);
    for message in 0..queued {
        Original::send(&sender, message);
    }
    (sender, receiver)
}

/// Sets a capacity less by 1 and the former one again, with no message dropped, `times` times.
pub fn set(queued: u64, times: u64) -> u64 {
    let (mut sender, _receiver) = filled(2 * queued, queued);
    for _ in 0..times {
        sender.set_capacity(2 * queued as usize - 1);
        sender.set_capacity(2 * queued as usize);
    }
    (sender.capacity() + sender.len()) as u64
}

/// Makes a channel that keeps one message, lets it grow to `capacity`, and sends one more.
pub fn grow(capacity: u64, times: u64) -> u64 {
    let mut sum = 0;
    for _ in 0..times {
        let (mut sender, _receiver) = filled(1, 1);
        sender.set_capacity(capacity as usize);
        Original::send(&sender, 1);
        sum += sender.len() as u64;
    }
    sum
}

/// Makes and fills a channel of `capacity`, sets its capacity to 1, and receives twice.
pub fn shrink(capacity: u64, times: u64) -> u64 {
    let mut sum = 0u64;
    for _ in 0..times {
        let (mut sender, mut receiver) = filled(capacity, capacity);
        sender.set_capacity(1);
        for _ in 0..2 {
            sum = sum.wrapping_add(Original::receive(&mut receiver).weight());
        }
    }
    sum
}
