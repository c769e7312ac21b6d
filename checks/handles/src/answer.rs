//! What a call returns, in the words of the program `handle_calls`.
use async_broadcast::{RecvError, SendError, TryRecvError, TrySendError};
use std::task::Poll;

/// What all handles see of their channel.
#[derive(Clone, Debug, PartialEq)]
pub struct Seen {
    pub capacity: usize,
    pub len: usize,
    pub receivers: usize,
    pub inactive: usize,
    pub senders: usize,
    pub overflow: bool,
    pub await_active: bool,
    pub is_empty: bool,
    pub is_full: bool,
    pub is_closed: bool,
}

/// What a call returned. It prints as `Answer` of `handle_calls` does.
#[derive(Clone, Debug, PartialEq)]
pub enum Answer {
    Accepted,
    Dropped(u64),
    Full(u64),
    Closed(u64),
    Inactive(u64),
    AllFull(usize),
    AllClosed(usize),
    AllInactive(usize),
    Refused(u64),
    NotInTime(u64),
    Message(u64),
    Overflowed(u64),
    Empty,
    Timeout,
    Ended,
    Pending,
    Made(usize),
    Count(usize),
    Is(bool),
    All(Seen),
    Differs,
    Done,
}

impl Answer {
    fn accepted(oldest: Option<u64>) -> Self {
        oldest.map_or(Answer::Accepted, Answer::Dropped)
    }

    pub fn of_try_send(sent: Result<Option<u64>, TrySendError<u64>>) -> Self {
        match sent {
            Ok(oldest) => Answer::accepted(oldest),
            Err(TrySendError::Full(back)) => Answer::Full(back),
            Err(TrySendError::Closed(back)) => Answer::Closed(back),
            Err(TrySendError::Inactive(back)) => Answer::Inactive(back),
        }
    }

    pub fn of_send(sent: Result<Option<u64>, SendError<u64>>) -> Self {
        match sent {
            Ok(oldest) => Answer::accepted(oldest),
            Err(SendError(back)) => Answer::Refused(back),
        }
    }

    pub fn of_try_recv(received: Result<u64, TryRecvError>) -> Self {
        match received {
            Ok(msg) => Answer::Message(msg),
            Err(TryRecvError::Overflowed(missed)) => Answer::Overflowed(missed),
            Err(TryRecvError::Empty) => Answer::Empty,
            Err(TryRecvError::Closed) => Answer::Ended,
        }
    }

    pub fn of_recv(received: Result<u64, RecvError>) -> Self {
        match received {
            Ok(msg) => Answer::Message(msg),
            Err(RecvError::Overflowed(missed)) => Answer::Overflowed(missed),
            Err(RecvError::Closed) => Answer::Ended,
        }
    }

    /// A poll: what its answer is if it has one.
    pub fn of_poll<R>(polled: Poll<R>, of: fn(R) -> Self) -> Self {
        match polled {
            Poll::Ready(answer) => of(answer),
            Poll::Pending => Answer::Pending,
        }
    }
}
