//! What the loops of calls ask of a channel.

use crate::message::Message;

/// What a receiver was given.
pub enum Got<T> {
    Message(T),
    /// So many were dropped before it came.
    Missed(u64),
    Nothing,
}

impl<T: Message> Got<T> {
    /// What it adds to a checksum.
    #[inline]
    pub fn weight(&self) -> u64 {
        match self {
            Got::Message(message) => message.weight(),
            Got::Missed(count) => *count,
            Got::Nothing => 0,
        }
    }
}

/// A channel whose receivers get every message.
pub trait Channel<T> {
    type Sender;
    type Receiver;

    /// A new channel with one receiver.
    fn pair(capacity: usize) -> (Self::Sender, Self::Receiver);

    /// A new channel with so many receivers, at least one.
    fn make(capacity: usize, receivers: usize) -> (Self::Sender, Vec<Self::Receiver>);

    /// Sends, and doesn't wait.
    fn send(sender: &Self::Sender, message: T);

    /// Receives, and doesn't wait.
    fn receive(receiver: &mut Self::Receiver) -> Got<T>;
}
