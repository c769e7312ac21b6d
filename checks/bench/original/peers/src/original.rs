//! async-broadcast 0.7.2.

use crate::channel::{Channel, Got};
use crate::polls::Polled;
use async_broadcast::{broadcast, Receiver, RecvError, Sender, TryRecvError};
use std::future::Future;
use std::pin::pin;
use std::task::Context;

pub struct Original;

impl<T: Clone> Channel<T> for Original {
    type Sender = Sender<T>;
    type Receiver = Receiver<T>;

    fn pair(capacity: usize) -> (Sender<T>, Receiver<T>) {
        broadcast(capacity)
    }
    fn make(capacity: usize, receivers: usize) -> (Sender<T>, Vec<Receiver<T>>) {
        let (sender, first) = broadcast(capacity);
        (sender, vec![first; receivers])
    }
    #[inline]
    fn send(sender: &Sender<T>, message: T) {
        let _ = sender.try_broadcast(message);
    }
    #[inline]
    fn receive(receiver: &mut Receiver<T>) -> Got<T> {
        match receiver.try_recv() {
            Ok(message) => Got::Message(message),
            Err(TryRecvError::Overflowed(count)) => Got::Missed(count),
            Err(TryRecvError::Empty | TryRecvError::Closed) => Got::Nothing,
        }
    }
}

impl Polled for Original {
    type Answer = Result<u64, RecvError>;

    #[inline]
    fn receiving(receiver: &mut Receiver<u64>) -> impl Future<Output = Self::Answer> {
        receiver.recv_direct()
    }
    #[inline]
    fn send_polled(sender: &Sender<u64>, message: u64, cx: &mut Context<'_>) {
        let _ = pin!(sender.broadcast_direct(message)).poll(cx);
    }
    #[inline]
    fn number(answer: Self::Answer) -> u64 {
        answer.unwrap_or(0)
    }
}
