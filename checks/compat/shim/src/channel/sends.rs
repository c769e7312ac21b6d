//! The calls that offer a message.
use std::ops::ControlFlow;
use std::task::Waker;

use super::{fail, Channel, State};
use crate::{SendError, TrySendError};

/// The answer to a send, or its message, where it must wait.
pub(crate) type Attempt<T> = ControlFlow<Result<Option<T>, SendError<T>>, T>;

impl<T> Channel<T> {
    pub(crate) fn try_broadcast(&self, msg: T) -> Result<Option<T>, TrySendError<T>> {
        self.turn(|state| state.offer("TryBroadcast", msg, tried))
            .unwrap_or_else(|fault| fail(fault))
    }

    pub(crate) fn broadcast_blocking(&self, msg: T) -> Result<Option<T>, SendError<T>> {
        self.block(msg, |state, msg| state.offer("AttemptSend", msg, attempted))
    }

    /// Polls the send that has this place.
    pub(crate) fn poll_send(&self, place: usize, msg: T, waker: &Waker) -> Attempt<T> {
        let poll = |state: &mut State<T>| {
            state.offer(&format!("PollSend {place}"), msg, |state, words| {
                let attempt = attempted(state, words)?;
                if attempt.is_continue() {
                    state.wakers.insert(place.to_string(), waker.clone());
                }
                Some(attempt)
            })
        };
        self.turn(poll).unwrap_or_else(|fault| fail(fault))
    }
}

fn tried<T>(state: &mut State<T>, words: &[&str]) -> Option<Result<Option<T>, TrySendError<T>>> {
    let mut take = |number| state.messages.take(number);
    Some(match words {
        ["ok"] => Ok(None),
        ["ok", "dropped", number] => Ok(Some(take(number)?)),
        ["full", number] => Err(TrySendError::Full(take(number)?)),
        ["closed", number] => Err(TrySendError::Closed(take(number)?)),
        ["inactive", number] => Err(TrySendError::Inactive(take(number)?)),
        _ => return None,
    })
}

fn attempted<T>(state: &mut State<T>, words: &[&str]) -> Option<Attempt<T>> {
    let mut take = |number| state.messages.take(number);
    Some(match words {
        ["ready", "ok"] => Attempt::Break(Ok(None)),
        ["ready", "ok", "dropped", number] => Attempt::Break(Ok(Some(take(number)?))),
        ["ready", "senderror", number] => Attempt::Break(Err(SendError(take(number)?))),
        ["wait", number] => Attempt::Continue(take(number)?),
        _ => return None,
    })
}
