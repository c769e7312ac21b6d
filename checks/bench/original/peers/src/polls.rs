//! Receives that are polled one at a time, and dropped.

use crate::channel::Channel;
use crate::waker::Kind;
use std::future::Future;
use std::pin::pin;
use std::task::{Context, Poll};

/// A channel whose receives are futures.
pub trait Polled: Channel<u64> {
    type Answer;

    /// A receive, which doesn't move to the heap.
    fn receiving(receiver: &mut Self::Receiver) -> impl Future<Output = Self::Answer>;

    /// A send where there is room: polled once, if it is a future.
    fn send_polled(sender: &Self::Sender, message: u64, cx: &mut Context<'_>);

    /// The message, or 0.
    fn number(answer: Self::Answer) -> u64;
}

/// Sends and receives `times` messages by polls that never wait, and sums what was received.
pub fn ready<C: Polled>(kind: Kind, times: u64) -> u64 {
    let (sender, mut receivers) = C::make(16, 1);
    let waker = kind.waker();
    let mut cx = Context::from_waker(&waker);
    let mut sum = 0u64;
    for message in 0..times {
        C::send_polled(&sender, message, &mut cx);
        let receive = pin!(C::receiving(&mut receivers[0]));
        sum = sum.wrapping_add(number::<C>(receive.poll(&mut cx)));
    }
    sum
}

/// Polls a receive, which waits, and gives it up, `times` times. Answers how often it waited.
pub fn pending<C: Polled>(kind: Kind, times: u64) -> u64 {
    let (_sender, mut receivers) = C::make(16, 1);
    let waker = kind.waker();
    let mut cx = Context::from_waker(&waker);
    let mut waited = 0;
    for _ in 0..times {
        let receive = pin!(C::receiving(&mut receivers[0]));
        waited += u64::from(receive.poll(&mut cx).is_pending());
    }
    waited
}

/// Polls a receive, which waits, sends a message, and polls it again, `times` times. Sums what was
/// received.
pub fn receive_told<C: Polled>(kind: Kind, times: u64) -> u64 {
    let (sender, mut receivers) = C::make(16, 1);
    let waker = kind.waker();
    let mut cx = Context::from_waker(&waker);
    let mut sum = 0u64;
    for message in 0..times {
        let mut receive = pin!(C::receiving(&mut receivers[0]));
        let _ = receive.as_mut().poll(&mut cx);
        C::send(&sender, message);
        sum = sum.wrapping_add(number::<C>(receive.poll(&mut cx)));
    }
    sum
}

/// The message, or 0 where the receive waits.
#[inline]
pub fn number<C: Polled>(polled: Poll<C::Answer>) -> u64 {
    match polled {
        Poll::Ready(answer) => C::number(answer),
        Poll::Pending => 0,
    }
}
