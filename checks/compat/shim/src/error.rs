//! What is answered where nothing is sent or received, with the texts that the original prints.
use std::error::Error;
use std::fmt::{Debug, Display, Formatter, Result};

/// A send that was not accepted, with its message.
#[derive(PartialEq, Eq, Clone, Copy)]
pub struct SendError<T>(pub T);

/// A send that was not accepted at once, with its message.
#[derive(PartialEq, Eq, Clone, Copy)]
pub enum TrySendError<T> {
    /// The channel is full, and open.
    Full(T),
    /// The channel is closed.
    Closed(T),
    /// There are inactive receivers alone.
    Inactive(T),
}

/// A receive without a message.
#[derive(PartialEq, Eq, Clone, Copy, Debug)]
pub enum RecvError {
    /// So many messages were missed.
    Overflowed(u64),
    /// The channel is closed, and all was received.
    Closed,
}

/// A receive that found no message.
#[derive(PartialEq, Eq, Clone, Copy, Debug)]
pub enum TryRecvError {
    /// So many messages were missed.
    Overflowed(u64),
    /// The channel is open, and all was received.
    Empty,
    /// The channel is closed, and all was received.
    Closed,
}

impl<T> SendError<T> {
    pub fn into_inner(self) -> T {
        self.0
    }
}

impl<T> TrySendError<T> {
    pub fn into_inner(self) -> T {
        match self {
            Self::Full(msg) | Self::Closed(msg) | Self::Inactive(msg) => msg,
        }
    }

    pub fn is_full(&self) -> bool {
        matches!(self, Self::Full(_))
    }

    pub fn is_closed(&self) -> bool {
        matches!(self, Self::Closed(_))
    }

    pub fn is_disconnected(&self) -> bool {
        matches!(self, Self::Inactive(_))
    }
}

impl TryRecvError {
    pub fn is_empty(&self) -> bool {
        matches!(self, Self::Empty)
    }

    pub fn is_closed(&self) -> bool {
        matches!(self, Self::Closed)
    }

    pub fn is_overflowed(&self) -> bool {
        matches!(self, Self::Overflowed(_))
    }
}

impl<T> Error for SendError<T> {}
impl<T> Error for TrySendError<T> {}
impl Error for RecvError {}
impl Error for TryRecvError {}

impl<T> Debug for SendError<T> {
    fn fmt(&self, f: &mut Formatter<'_>) -> Result {
        f.write_str("SendError(..)")
    }
}

impl<T> Display for SendError<T> {
    fn fmt(&self, f: &mut Formatter<'_>) -> Result {
        f.write_str("sending into a closed channel")
    }
}

impl<T> Debug for TrySendError<T> {
    fn fmt(&self, f: &mut Formatter<'_>) -> Result {
        f.write_str(match self {
            Self::Full(_) => "Full(..)",
            Self::Closed(_) => "Closed(..)",
            Self::Inactive(_) => "Inactive(..)",
        })
    }
}

impl<T> Display for TrySendError<T> {
    fn fmt(&self, f: &mut Formatter<'_>) -> Result {
        f.write_str(match self {
            Self::Full(_) => "sending into a full channel",
            Self::Closed(_) => "sending into a closed channel",
            Self::Inactive(_) => "sending into the void (no active receivers)",
        })
    }
}

impl Display for RecvError {
    fn fmt(&self, f: &mut Formatter<'_>) -> Result {
        match self {
            Self::Overflowed(count) => write!(f, "receiving skipped {count} messages"),
            Self::Closed => f.write_str("receiving from an empty and closed channel"),
        }
    }
}

impl Display for TryRecvError {
    fn fmt(&self, f: &mut Formatter<'_>) -> Result {
        match self {
            Self::Overflowed(count) => {
                write!(f, "receiving operation observed {count} lost messages")
            }
            Self::Empty => f.write_str("receiving from an empty channel"),
            Self::Closed => f.write_str("receiving from an empty and closed channel"),
        }
    }
}
