//! Messages that are sent and received, in one thread.

use crate::channel::Channel;
use crate::message::Message;
use std::hint::black_box;

/// Sends `messages` messages, each received at once by every receiver, and sums what was received.
pub fn step<T: Message, C: Channel<T>>(capacity: usize, receivers: usize, messages: u64) -> u64 {
    let (sender, mut all) = C::make(capacity, receivers);
    let first = T::first();
    let mut sum = 0u64;
    for number in 0..messages {
        C::send(&sender, first.of(number));
        for receiver in &mut all {
            sum = sum.wrapping_add(C::receive(receiver).weight());
        }
    }
    sum
}

/// In each round fills the channel, and then each receiver in turn receives all messages.
pub fn batch<T: Message, C: Channel<T>>(capacity: usize, receivers: usize, rounds: u64) -> u64 {
    let (sender, mut all) = C::make(capacity, receivers);
    let first = T::first();
    let mut sum = 0u64;
    let mut next = 0;
    for _ in 0..rounds {
        for _ in 0..capacity {
            C::send(&sender, first.of(next));
            next += 1;
        }
        for receiver in &mut all {
            for _ in 0..capacity {
                sum = sum.wrapping_add(C::receive(receiver).weight());
            }
        }
    }
    sum
}

/// Makes a channel and drops it, `times` times. Answers how often.
pub fn make_and_drop<C: Channel<u64>>(capacity: usize, times: u64) -> u64 {
    for _ in 0..times {
        drop(black_box(C::pair(capacity)));
    }
    times
}

/// Clones the sender and drops the clone, `times` times. Answers how often.
pub fn clone_sender<C: Channel<u64, Sender: Clone>>(times: u64) -> u64 {
    let (sender, _receivers) = C::make(16, 1);
    for _ in 0..times {
        drop(black_box(sender.clone()));
    }
    times
}
