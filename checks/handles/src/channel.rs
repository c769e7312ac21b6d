//! The handles of one channel of async-broadcast, each with its number, and calls on them.
use crate::answer::{Answer, Seen};
use async_broadcast::{broadcast, InactiveReceiver, Receiver, Sender};
use futures_core::Stream;
use std::pin::{pin, Pin};
use std::task::{Context, Poll, Waker};

/// The handles of one channel. The number of a handle that left is not given again.
pub struct Channel {
    pub senders: Vec<Option<Sender<u64>>>,
    pub receivers: Vec<Option<Receiver<u64>>>,
    pub inactive: Vec<Option<InactiveReceiver<u64>>>,
}

/// What a handle sees of its channel; all three kinds have the calls for it.
macro_rules! seen {
    ($handle:expr) => {
        Seen {
            capacity: $handle.capacity(),
            len: $handle.len(),
            receivers: $handle.receiver_count(),
            inactive: $handle.inactive_receiver_count(),
            senders: $handle.sender_count(),
            overflow: $handle.overflow(),
            await_active: $handle.await_active(),
            is_empty: $handle.is_empty(),
            is_full: $handle.is_full(),
            is_closed: $handle.is_closed(),
        }
    };
}

/// A call that every handle has, by its name. `None`: no handle has one of this name.
macro_rules! by_handle {
    ($handle:expr, $method:expr, $argument:expr) => {
        Some(match $method {
            "capacity" => Answer::Count($handle.capacity()),
            "overflow" => Answer::Is($handle.overflow()),
            "await_active" => Answer::Is($handle.await_active()),
            "close" => Answer::Is($handle.close()),
            "is_closed" => Answer::Is($handle.is_closed()),
            "is_empty" => Answer::Is($handle.is_empty()),
            "is_full" => Answer::Is($handle.is_full()),
            "len" => Answer::Count($handle.len()),
            "receiver_count" => Answer::Count($handle.receiver_count()),
            "inactive_receiver_count" => Answer::Count($handle.inactive_receiver_count()),
            "sender_count" => Answer::Count($handle.sender_count()),
            "set_capacity" => {
                $handle.set_capacity($argument as usize);
                Answer::Done
            }
            "set_overflow" => {
                $handle.set_overflow($argument != 0);
                Answer::Done
            }
            "set_await_active" => {
                $handle.set_await_active($argument != 0);
                Answer::Done
            }
            _ => return None,
        })
    };
}

/// Adds a handle, and returns its number.
fn add<H>(list: &mut Vec<Option<H>>, made: H) -> Answer {
    list.push(Some(made));
    Answer::Made(list.len() - 1)
}

impl Channel {
    pub fn new(capacity: usize) -> Self {
        let (sender, receiver) = broadcast(capacity);
        Channel {
            senders: vec![Some(sender)],
            receivers: vec![Some(receiver)],
            inactive: Vec::new(),
        }
    }

    /// What all handles see; all have to see one thing.
    pub fn seen(&self) -> Answer {
        let mut all = Vec::new();
        all.extend(self.senders.iter().flatten().map(|handle| seen!(handle)));
        all.extend(self.receivers.iter().flatten().map(|handle| seen!(handle)));
        all.extend(self.inactive.iter().flatten().map(|handle| seen!(handle)));
        match all.split_first() {
            None => Answer::Done,
            Some((first, rest)) if rest.iter().all(|seen| seen == first) => {
                Answer::All(first.clone())
            }
            Some(_) => Answer::Differs,
        }
    }

    /// A call on a sender. `None`: there is no such call, or it would block.
    pub fn by_sender(&mut self, index: usize, method: &str, argument: u64) -> Option<Answer> {
        let slot = self.senders.get_mut(index)?;
        let sender = slot.as_mut()?;
        match method {
            "try_broadcast" => Some(Answer::of_try_send(sender.try_broadcast(argument))),
            "broadcast_blocking" if must_wait(sender) => None,
            "broadcast_blocking" => Some(Answer::of_send(sender.broadcast_blocking(argument))),
            "broadcast_timeout" if must_wait(sender) => Some(Answer::NotInTime(argument)),
            "broadcast_timeout" => Some(Answer::of_send(sender.broadcast_blocking(argument))),
            "clone" => {
                let made = sender.clone();
                Some(add(&mut self.senders, made))
            }
            "new_receiver" => {
                let made = sender.new_receiver();
                Some(add(&mut self.receivers, made))
            }
            "drop" => {
                *slot = None;
                Some(Answer::Done)
            }
            _ => by_handle!(sender, method, argument),
        }
    }

    /// A whole list by a sender, which the original doesn't have: one `try_broadcast` after another,
    /// if there is room for all of them.
    pub fn send_all(&mut self, index: usize, msgs: &[u64]) -> Option<Answer> {
        let sender = self.senders.get(index)?.as_ref()?;
        if sender.is_closed() {
            return Some(Answer::AllClosed(msgs.len()));
        }
        if sender.receiver_count() == 0 {
            return Some(Answer::AllInactive(msgs.len()));
        }
        if sender.len() + msgs.len() > sender.capacity() {
            return Some(Answer::AllFull(msgs.len()));
        }
        let sent = msgs.iter().all(|msg| matches!(sender.try_broadcast(*msg), Ok(None)));
        Some(if sent { Answer::Accepted } else { Answer::Differs })
    }

    /// A call on a receiver. `None`: there is no such call, or it would block.
    pub fn by_receiver(&mut self, index: usize, method: &str, argument: u64) -> Option<Answer> {
        let slot = self.receivers.get_mut(index)?;
        let receiver = slot.as_mut()?;
        match method {
            "try_recv" => Some(Answer::of_try_recv(receiver.try_recv())),
            "recv_timeout" if receiver.clone().try_recv().is_err_and(|error| error.is_empty()) => {
                Some(Answer::Timeout)
            }
            "recv_blocking" if receiver.clone().try_recv().is_err_and(|error| error.is_empty()) => {
                None
            }
            "recv_blocking" | "recv_timeout" => Some(Answer::of_recv(receiver.recv_blocking())),
            "is_terminated" => Some(Answer::Is(futures_core::FusedStream::is_terminated(receiver))),
            "clone" => {
                let made = receiver.clone();
                Some(add(&mut self.receivers, made))
            }
            "new_receiver" => {
                let made = receiver.new_receiver();
                Some(add(&mut self.receivers, made))
            }
            "new_sender" => Some(add(&mut self.senders, receiver.new_sender())),
            "deactivate" => {
                let receiver = slot.take()?;
                Some(add(&mut self.inactive, receiver.deactivate()))
            }
            "drop" => {
                *slot = None;
                Some(Answer::Done)
            }
            _ => by_handle!(receiver, method, argument),
        }
    }

    /// A poll of a receiver.
    pub fn poll_receiver(&mut self, index: usize, method: &str) -> Option<Answer> {
        let receiver = self.receivers.get_mut(index)?.as_mut()?;
        let cx = &mut Context::from_waker(Waker::noop());
        match method {
            "poll_recv" => Some(Answer::of_poll(Pin::new(receiver).poll_recv(cx), |received| {
                received.map_or(Answer::Ended, Answer::of_recv)
            })),
            "poll_next" => Some(Answer::of_poll(Pin::new(receiver).poll_next(cx), |item| {
                item.map_or(Answer::Ended, Answer::Message)
            })),
            "poll_future" => {
                let receive = pin!(receiver.recv_direct());
                Some(Answer::of_poll(receive.poll(cx), Answer::of_recv))
            }
            _ => None,
        }
    }

    /// A call on an inactive receiver. `None`: there is no such call.
    pub fn by_inactive(&mut self, index: usize, method: &str, argument: u64) -> Option<Answer> {
        let slot = self.inactive.get_mut(index)?;
        let inactive = slot.as_mut()?;
        match method {
            "clone" => {
                let made = inactive.clone();
                Some(add(&mut self.inactive, made))
            }
            "activate_cloned" => Some(add(&mut self.receivers, inactive.activate_cloned())),
            "activate" => {
                let inactive = slot.take()?;
                Some(add(&mut self.receivers, inactive.activate()))
            }
            "drop" => {
                *slot = None;
                Some(Answer::Done)
            }
            _ => by_handle!(inactive, method, argument),
        }
    }
}

/// Whether a send that may wait would wait.
fn must_wait(sender: &Sender<u64>) -> bool {
    let has_room = if sender.receiver_count() == 0 {
        !sender.await_active()
    } else {
        !sender.is_full() || sender.overflow()
    };
    !sender.is_closed() && !has_room
}

/// Polls a future once.
pub fn poll_once<F: Future + ?Sized>(future: Pin<&mut F>) -> Poll<F::Output> {
    future.poll(&mut Context::from_waker(Waker::noop()))
}
