//! The active receivers, which are streams too.
use std::pin::Pin;
use std::sync::Arc;
use std::task::{Context, Poll};

use futures_core::stream::{FusedStream, Stream};

use crate::channel::Channel;
use crate::shared::shared;
use crate::{InactiveReceiver, Recv, RecvError, Sender, TryRecvError};

pub struct Receiver<T> {
    pub(crate) channel: Arc<Channel<T>>,
    /// `None` once it was deactivated. Its future sees by it whether the receiver is there still.
    pub(crate) key: Option<Arc<usize>>,
}

shared!(Receiver);

impl<T> Receiver<T> {
    /// The receiver that has this key.
    pub(crate) fn of(channel: &Arc<Channel<T>>, key: usize) -> Receiver<T> {
        Receiver {
            channel: channel.clone(),
            key: Some(Arc::new(key)),
        }
    }

    pub(crate) fn key(&self) -> usize {
        **self
            .key
            .as_ref()
            .expect("only a deactivated receiver has no key")
    }

    pub fn deactivate(mut self) -> InactiveReceiver<T> {
        self.channel.make(&format!("Deactivate {}", self.key()));
        self.key = None;
        InactiveReceiver::of(&self.channel)
    }
}

impl<T: Clone> Receiver<T> {
    pub fn recv(&mut self) -> Pin<Box<Recv<'_, T>>> {
        Box::pin(self.recv_direct())
    }

    pub fn recv_direct(&mut self) -> Recv<'_, T> {
        Recv::new(self)
    }

    pub fn try_recv(&mut self) -> Result<T, TryRecvError> {
        self.channel.try_recv(self.key())
    }

    pub fn recv_blocking(&mut self) -> Result<T, RecvError> {
        self.channel.recv_blocking(self.key())
    }

    pub fn new_sender(&self) -> Sender<T> {
        Sender::new(&self.channel)
    }

    pub fn new_receiver(&self) -> Self {
        Receiver::of(&self.channel, self.channel.place("NewReceiver"))
    }

    pub fn poll_recv(
        self: Pin<&mut Self>,
        cx: &mut Context<'_>,
    ) -> Poll<Option<Result<T, RecvError>>> {
        self.channel.poll_recv(self.key(), cx.waker())
    }
}

impl<T> Clone for Receiver<T> {
    fn clone(&self) -> Self {
        let key = self.channel.place(&format!("CloneReceiver {}", self.key()));
        Receiver::of(&self.channel, key)
    }
}

impl<T> Drop for Receiver<T> {
    fn drop(&mut self) {
        if let Some(key) = &self.key {
            self.channel.leave(&format!("DropReceiver {key}"));
        }
    }
}

impl<T: Clone> Stream for Receiver<T> {
    type Item = T;

    fn poll_next(self: Pin<&mut Self>, cx: &mut Context<'_>) -> Poll<Option<T>> {
        self.channel.poll_next(self.key(), cx.waker())
    }
}

impl<T: Clone> FusedStream for Receiver<T> {
    fn is_terminated(&self) -> bool {
        self.channel.flag("IsTerminated")
    }
}
