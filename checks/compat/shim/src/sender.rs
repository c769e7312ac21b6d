//! The maker of a channel, and its senders.
use std::pin::Pin;
use std::sync::Arc;

use crate::channel::Channel;
use crate::shared::shared;
use crate::{Receiver, Send, SendError, TrySendError};

pub fn broadcast<T>(cap: usize) -> (Sender<T>, Receiver<T>) {
    assert!(cap > 0, "capacity cannot be zero");
    let channel = Arc::new(Channel::open(cap));
    let receiver = Receiver::of(&channel, 0);
    (Sender { channel }, receiver)
}

pub struct Sender<T> {
    pub(crate) channel: Arc<Channel<T>>,
}

shared!(Sender);

impl<T> Sender<T> {
    /// One sender more of a channel.
    pub(crate) fn new(channel: &Arc<Channel<T>>) -> Sender<T> {
        channel.make("NewSender");
        Sender {
            channel: channel.clone(),
        }
    }

    pub fn new_receiver(&self) -> Receiver<T> {
        Receiver::of(&self.channel, self.channel.place("NewReceiver"))
    }
}

impl<T: Clone> Sender<T> {
    pub fn broadcast(&self, msg: T) -> Pin<Box<Send<'_, T>>> {
        Box::pin(self.broadcast_direct(msg))
    }

    pub fn broadcast_direct(&self, msg: T) -> Send<'_, T> {
        Send::new(self, msg)
    }

    pub fn try_broadcast(&self, msg: T) -> Result<Option<T>, TrySendError<T>> {
        self.channel.try_broadcast(msg)
    }

    pub fn broadcast_blocking(&self, msg: T) -> Result<Option<T>, SendError<T>> {
        self.channel.broadcast_blocking(msg)
    }
}

impl<T> Clone for Sender<T> {
    fn clone(&self) -> Self {
        Sender::new(&self.channel)
    }
}

impl<T> Drop for Sender<T> {
    fn drop(&mut self) {
        self.channel.leave("DropSender");
    }
}
