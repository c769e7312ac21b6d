//! Full channels that drop their oldest message.

use crate::channel::Channel;

/// A channel that can drop its oldest message where it is full.
pub trait Overflowing: Channel<u64> {
    /// A new channel that does so.
    fn make_overflowing(capacity: usize, receivers: usize) -> (Self::Sender, Vec<Self::Receiver>);

    /// Sends, and answers the message that was dropped where the channel hands it back, or 0.
    fn send_over(sender: &Self::Sender, message: u64) -> u64;
}

impl Overflowing for crate::original::Original {
    fn make_overflowing(capacity: usize, receivers: usize) -> (Self::Sender, Vec<Self::Receiver>) {
        let (mut sender, all) = Self::make(capacity, receivers);
        sender.set_overflow(true);
        (sender, all)
    }
    #[inline]
    fn send_over(sender: &Self::Sender, message: u64) -> u64 {
        sender.try_broadcast(message).ok().flatten().unwrap_or(0)
    }
}

impl Overflowing for crate::tokio::Tokio {
    fn make_overflowing(capacity: usize, receivers: usize) -> (Self::Sender, Vec<Self::Receiver>) {
        Self::make(capacity, receivers)
    }
    #[inline]
    fn send_over(sender: &Self::Sender, message: u64) -> u64 {
        let _ = sender.send(message);
        0
    }
}

/// Sends so many messages, which the one receiver doesn't receive. Sums what was handed back.
pub fn overwrite<C: Overflowing>(capacity: usize, messages: u64) -> u64 {
    let (sender, _receivers) = C::make_overflowing(capacity, 1);
    (0..messages).fold(0u64, |sum, message| {
        sum.wrapping_add(C::send_over(&sender, message))
    })
}

/// In each round sends twice as many messages as there is room for, each received at once by one
/// receiver; the other then receives the count of those it missed, and the rest.
pub fn lag<C: Overflowing>(capacity: usize, rounds: u64) -> u64 {
    let (sender, mut all) = C::make_overflowing(capacity, 2);
    let mut sum = 0u64;
    let mut next = 0;
    for _ in 0..rounds {
        for _ in 0..2 * capacity {
            C::send(&sender, next);
            next += 1;
            sum = sum.wrapping_add(C::receive(&mut all[0]).weight());
        }
        for _ in 0..=capacity {
            sum = sum.wrapping_add(C::receive(&mut all[1]).weight());
        }
    }
    sum
}
