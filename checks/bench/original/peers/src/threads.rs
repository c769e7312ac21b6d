//! Senders and receivers in threads, which wait for each other.

use crate::channel::Channel;
use crate::crossbeam::FanOut;
use crate::original::Original;
use crate::tokio::Tokio;
use std::future::Future;
use std::pin::pin;
use std::sync::{Arc, Mutex};
use std::task::{Context, Poll, Wake, Waker};
use std::thread::{self, Thread};

/// How many messages the channels keep, if they don't keep all.
const CAPACITY: usize = 16;

/// A channel whose ends wait.
trait Waits {
    type Sender: Clone + Send + 'static;
    type Receiver: Send + 'static;

    /// A new channel that keeps so many messages, of so many that will be sent.
    fn make(receivers: usize, kept: usize, messages: usize) -> (Self::Sender, Vec<Self::Receiver>);
    fn send(sender: &Self::Sender, message: u64);
    /// The next message; none where the channel is closed and empty.
    fn receive(receiver: &mut Self::Receiver) -> Option<u64>;
}

impl Waits for Original {
    type Sender = async_broadcast::Sender<u64>;
    type Receiver = async_broadcast::Receiver<u64>;

    fn make(
        receivers: usize,
        kept: usize,
        _messages: usize,
    ) -> (Self::Sender, Vec<Self::Receiver>) {
        <Original as Channel<u64>>::make(kept, receivers)
    }
    fn send(sender: &Self::Sender, message: u64) {
        sender
            .broadcast_blocking(message)
            .expect("the channel is open");
    }
    fn receive(receiver: &mut Self::Receiver) -> Option<u64> {
        receiver.recv_blocking().ok()
    }
}

/// tokio's senders never wait, so its channel has room for all messages: less work than the others'.
impl Waits for Tokio {
    type Sender = tokio::sync::broadcast::Sender<u64>;
    type Receiver = tokio::sync::broadcast::Receiver<u64>;

    fn make(
        receivers: usize,
        _kept: usize,
        messages: usize,
    ) -> (Self::Sender, Vec<Self::Receiver>) {
        <Tokio as Channel<u64>>::make(messages.max(1), receivers)
    }
    fn send(sender: &Self::Sender, message: u64) {
        sender.send(message).expect("there are receivers");
    }
    fn receive(receiver: &mut Self::Receiver) -> Option<u64> {
        wait(receiver.recv()).ok()
    }
}

/// The senders share a lock, so that all receivers get the messages in one order.
impl Waits for FanOut {
    type Sender = Arc<Mutex<Vec<crossbeam_channel::Sender<u64>>>>;
    type Receiver = crossbeam_channel::Receiver<u64>;

    fn make(
        receivers: usize,
        kept: usize,
        _messages: usize,
    ) -> (Self::Sender, Vec<Self::Receiver>) {
        let (senders, receivers) = <FanOut as Channel<u64>>::make(kept, receivers);
        (Arc::new(Mutex::new(senders)), receivers)
    }
    fn send(senders: &Self::Sender, message: u64) {
        for sender in senders.lock().expect("no sender failed").iter() {
            sender.send(message).expect("the channel is open");
        }
    }
    fn receive(receiver: &mut Self::Receiver) -> Option<u64> {
        receiver.recv().ok()
    }
}

/// Wakes a thread that waits for a future.
struct Parked(Thread);

impl Wake for Parked {
    fn wake(self: Arc<Self>) {
        self.0.unpark();
    }
}

thread_local! {
    static WAKER: Waker = Waker::from(Arc::new(Parked(thread::current())));
}

/// Blocks this thread until the future is ready.
fn wait<F: Future>(future: F) -> F::Output {
    let mut future = pin!(future);
    WAKER.with(|waker| loop {
        if let Poll::Ready(answer) = future.as_mut().poll(&mut Context::from_waker(waker)) {
            return answer;
        }
        thread::park();
    })
}

/// How many threads, and how many messages each sender sends.
#[derive(Clone, Copy)]
pub struct Sizes {
    pub senders: u64,
    pub receivers: u64,
    pub messages: u64,
    /// Whether the channel keeps all messages.
    pub has_room: bool,
}

/// Sends messages from each sender's thread to each receiver's, on that channel. Answers the line
/// that `bcast threads` prints, or none where there is no such channel.
pub fn line(channel: &str, sizes: Sizes) -> Option<String> {
    let lists = match channel {
        "original" => received::<Original>(sizes),
        "tokio" => received::<Tokio>(sizes),
        "crossbeam" => received::<FanOut>(sizes),
        _ => return None,
    };
    let Sizes {
        senders,
        receivers,
        messages,
        ..
    } = sizes;
    let all = senders * messages;
    let mut sorted = lists[0].clone();
    sorted.sort_unstable();
    if sorted.into_iter().eq(0..all) && lists.iter().all(|list| *list == lists[0]) {
        Some(format!(
            "{receivers} receivers, {all} messages each, one order"
        ))
    } else {
        Some("orders differ".to_string())
    }
}

/// What each receiver received.
fn received<W: Waits>(sizes: Sizes) -> Vec<Vec<u64>> {
    let Sizes {
        senders,
        receivers,
        messages,
        has_room,
    } = sizes;
    let total = (senders * messages) as usize;
    let kept = if has_room { total.max(1) } else { CAPACITY };
    let (sender, all) = W::make(receivers as usize, kept, total);
    let readers: Vec<_> = all
        .into_iter()
        .map(|mut receiver| {
            thread::spawn(move || std::iter::from_fn(|| W::receive(&mut receiver)).collect())
        })
        .collect();
    let writers: Vec<_> = (0..senders)
        .map(|number| {
            let sender = sender.clone();
            let numbers = number * messages..(number + 1) * messages;
            thread::spawn(move || numbers.for_each(|message| W::send(&sender, message)))
        })
        .collect();
    drop(sender);
    for writer in writers {
        writer.join().expect("a sender failed");
    }
    readers
        .into_iter()
        .map(|reader| reader.join().expect("a receiver failed"))
        .collect()
}
