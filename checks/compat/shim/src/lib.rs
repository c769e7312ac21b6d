//! The public surface of async-broadcast 0.7.2, with a process of `replay trace` for each channel.
//!
//! What the items do is said in the original's documentation, whose examples are run over them. The
//! variable `REPLAY` names the program, and `docs/TRACES.md` says how it is spoken to. The program
//! knows messages by numbers: the messages themselves stay here, and so do the wakers.
#![forbid(unsafe_code)]
#![deny(missing_debug_implementations, rust_2018_idioms)]

mod channel;
mod error;
mod futures;
mod inactive_receiver;
mod messages;
mod program;
mod receiver;
mod sender;
mod shared;
mod view;

pub use error::{RecvError, SendError, TryRecvError, TrySendError};
pub use futures::{Recv, Send};
pub use inactive_receiver::InactiveReceiver;
pub use receiver::Receiver;
pub use sender::{broadcast, Sender};
