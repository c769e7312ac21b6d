//! The two futures. What ends them names no lifetime, so that a handle may go before its future, as
//! in the original.
use std::fmt::{Debug, Formatter};
use std::future::Future;
use std::marker::PhantomPinned;
use std::ops::ControlFlow;
use std::pin::Pin;
use std::sync::{Arc, Weak};
use std::task::{Context, Poll};

use pin_project_lite::pin_project;

use crate::channel::Channel;
use crate::{Receiver, RecvError, SendError, Sender};

/// The place of a send, until it is answered.
struct Place<T> {
    channel: Arc<Channel<T>>,
    number: Option<usize>,
}

impl<T> Drop for Place<T> {
    fn drop(&mut self) {
        if let Some(number) = self.number {
            self.channel.leave(&format!("EndSend {number}"));
        }
    }
}

/// The key of a receiver, while the receiver is there: later the key may be another's.
struct Key<T> {
    channel: Arc<Channel<T>>,
    number: Weak<usize>,
}

impl<T> Drop for Key<T> {
    fn drop(&mut self) {
        if let Some(number) = self.number.upgrade() {
            self.channel.leave(&format!("EndFuture {number}"));
        }
    }
}

pin_project! {
    #[must_use = "futures do nothing unless .awaited"]
    pub struct Send<'a, T: Clone> {
        sender: &'a Sender<T>,
        place: Place<T>,
        unsent: Option<T>,
        #[pin]
        pinned: PhantomPinned,
    }
}

pin_project! {
    #[must_use = "futures do nothing unless .awaited"]
    pub struct Recv<'a, T: Clone> {
        receiver: &'a mut Receiver<T>,
        key: Key<T>,
        #[pin]
        pinned: PhantomPinned,
    }
}

impl<'a, T: Clone> Send<'a, T> {
    pub(crate) fn new(sender: &'a Sender<T>, msg: T) -> Self {
        let number = Some(sender.channel.place("BeginSend"));
        let place = Place {
            channel: sender.channel.clone(),
            number,
        };
        Send {
            sender,
            place,
            unsent: Some(msg),
            pinned: PhantomPinned,
        }
    }
}

impl<T: Clone> Future for Send<'_, T> {
    type Output = Result<Option<T>, SendError<T>>;

    fn poll(self: Pin<&mut Self>, cx: &mut Context<'_>) -> Poll<Self::Output> {
        let this = self.project();
        // After its answer it is pending, and nothing is asked.
        let (Some(place), Some(msg)) = (this.place.number, this.unsent.take()) else {
            return Poll::Pending;
        };
        match this.sender.channel.poll_send(place, msg, cx.waker()) {
            ControlFlow::Break(answer) => {
                this.place.number = None;
                Poll::Ready(answer)
            }
            ControlFlow::Continue(msg) => {
                *this.unsent = Some(msg);
                Poll::Pending
            }
        }
    }
}

impl<T: Clone + Debug> Debug for Send<'_, T> {
    fn fmt(&self, f: &mut Formatter<'_>) -> std::fmt::Result {
        f.debug_struct("Send").finish_non_exhaustive()
    }
}

impl<'a, T: Clone> Recv<'a, T> {
    pub(crate) fn new(receiver: &'a mut Receiver<T>) -> Self {
        let number = receiver
            .key
            .as_ref()
            .map(Arc::downgrade)
            .unwrap_or_default();
        let key = Key {
            channel: receiver.channel.clone(),
            number,
        };
        Recv {
            receiver,
            key,
            pinned: PhantomPinned,
        }
    }
}

impl<T: Clone> Future for Recv<'_, T> {
    type Output = Result<T, RecvError>;

    fn poll(self: Pin<&mut Self>, cx: &mut Context<'_>) -> Poll<Self::Output> {
        let this = self.project();
        this.receiver
            .channel
            .poll_future(this.receiver.key(), cx.waker())
    }
}

impl<T: Clone + Debug> Debug for Recv<'_, T> {
    fn fmt(&self, f: &mut Formatter<'_>) -> std::fmt::Result {
        f.debug_struct("Recv").finish_non_exhaustive()
    }
}
