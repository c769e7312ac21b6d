//! The calls that receive a message.
use std::ops::ControlFlow;
use std::task::{Poll, Waker};

use super::{Channel, State};
use crate::{RecvError, TryRecvError};

impl<T: Clone> Channel<T> {
    pub(crate) fn try_recv(&self, key: usize) -> Result<T, TryRecvError> {
        self.ask(&format!("TryRecv {key}"), tried)
    }

    pub(crate) fn recv_blocking(&self, key: usize) -> Result<T, RecvError> {
        let call = format!("TryRecv {key}");
        self.block((), |state, ()| {
            Ok(match state.ask(&call, tried)? {
                Ok(msg) => ControlFlow::Break(Ok(msg)),
                Err(TryRecvError::Overflowed(count)) => {
                    ControlFlow::Break(Err(RecvError::Overflowed(count)))
                }
                Err(TryRecvError::Closed) => ControlFlow::Break(Err(RecvError::Closed)),
                Err(TryRecvError::Empty) => ControlFlow::Continue(()),
            })
        })
    }

    /// Polls the future of this receiver.
    pub(crate) fn poll_future(&self, key: usize, waker: &Waker) -> Poll<Result<T, RecvError>> {
        self.poll(
            &format!("PollFuture {key}"),
            format!("{key}f"),
            waker,
            received,
        )
    }

    /// Polls this receiver as a stream that tells what was missed.
    pub(crate) fn poll_recv(
        &self,
        key: usize,
        waker: &Waker,
    ) -> Poll<Option<Result<T, RecvError>>> {
        let read = |state: &mut State<T>, words: &[&str]| match words {
            ["some", words @ ..] => received(state, words).map(Some),
            ["none"] => Some(None),
            _ => None,
        };
        self.poll(&format!("PollRecv {key}"), format!("{key}s"), waker, read)
    }

    /// Polls this receiver as a stream that passes over what was missed.
    pub(crate) fn poll_next(&self, key: usize, waker: &Waker) -> Poll<Option<T>> {
        let read = |state: &mut State<T>, words: &[&str]| match words {
            ["some", "got", number, "skipped", _] => state.messages.receive(number).map(Some),
            ["none"] => Some(None),
            _ => None,
        };
        self.poll(&format!("PollNext {key}"), format!("{key}s"), waker, read)
    }

    /// Makes a poll; `read` says what the words after `ready` mean.
    fn poll<R>(
        &self,
        call: &str,
        listener: String,
        waker: &Waker,
        read: impl FnOnce(&mut State<T>, &[&str]) -> Option<R>,
    ) -> Poll<R> {
        self.ask(call, |state, words| match words {
            ["ready", words @ ..] => read(state, words).map(Poll::Ready),
            ["pending"] => {
                state.wakers.insert(listener, waker.clone());
                Some(Poll::Pending)
            }
            _ => None,
        })
    }
}

fn tried<T: Clone>(state: &mut State<T>, words: &[&str]) -> Option<Result<T, TryRecvError>> {
    Some(match words {
        ["got", number] => Ok(state.messages.receive(number)?),
        ["overflowed", count] => Err(TryRecvError::Overflowed(count.parse().ok()?)),
        ["empty"] => Err(TryRecvError::Empty),
        ["closed"] => Err(TryRecvError::Closed),
        _ => return None,
    })
}

fn received<T: Clone>(state: &mut State<T>, words: &[&str]) -> Option<Result<T, RecvError>> {
    Some(match words {
        ["got", number] => Ok(state.messages.receive(number)?),
        ["overflowed", count] => Err(RecvError::Overflowed(count.parse().ok()?)),
        ["closed"] => Err(RecvError::Closed),
        _ => return None,
    })
}
