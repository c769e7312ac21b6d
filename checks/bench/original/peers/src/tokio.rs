//! tokio's broadcast channel. It drops the oldest message of a full channel, and never lets a sender
//! wait. Its capacity is the next power of two.

use crate::channel::{Channel, Got};
use crate::polls::Polled;
use std::future::Future;
use std::task::Context;
use tokio::sync::broadcast::error::{RecvError, TryRecvError};
use tokio::sync::broadcast::{channel, Receiver, Sender};

pub struct Tokio;

impl<T: Clone> Channel<T> for Tokio {
    type Sender = Sender<T>;
    type Receiver = Receiver<T>;

    fn pair(capacity: usize) -> (Sender<T>, Receiver<T>) {
        channel(capacity)
    }
    fn make(capacity: usize, receivers: usize) -> (Sender<T>, Vec<Receiver<T>>) {
        let (sender, first) = channel(capacity);
        let mut all = vec![first];
        all.extend((1..receivers).map(|_| sender.subscribe()));
        (sender, all)
    }
    #[inline]
    fn send(sender: &Sender<T>, message: T) {
        let _ = sender.send(message);
    }
    #[inline]
    fn receive(receiver: &mut Receiver<T>) -> Got<T> {
        match receiver.try_recv() {
            Ok(message) => Got::Message(message),
            Err(TryRecvError::Lagged(count)) => Got::Missed(count),
            Err(TryRecvError::Empty | TryRecvError::Closed) => Got::Nothing,
        }
    }
}

impl Polled for Tokio {
    type Answer = Result<u64, RecvError>;

    #[inline]
    fn receiving(receiver: &mut Receiver<u64>) -> impl Future<Output = Self::Answer> {
        receiver.recv()
    }
    #[inline]
    fn send_polled(sender: &Sender<u64>, message: u64, _cx: &mut Context<'_>) {
        let _ = sender.send(message);
    }
    #[inline]
    fn number(answer: Self::Answer) -> u64 {
        answer.unwrap_or(0)
    }
}
