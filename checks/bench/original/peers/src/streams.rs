//! Receivers of async-broadcast that wait as streams.

use crate::channel::Channel;
use crate::original::Original;
use crate::waker::Kind;
use async_broadcast::Receiver;
use std::pin::Pin;
use std::task::{Context, Poll};

/// So many receivers wait, and one message serves them all, `times` times. Sums what was received.
pub fn told(kind: Kind, waiting: usize, times: u64) -> u64 {
    let (sender, mut receivers) = Original::make(16, waiting);
    let waker = kind.waker();
    let mut cx = Context::from_waker(&waker);
    let mut sum = 0u64;
    for message in 0..times {
        poll_all(&mut receivers, &mut cx);
        Original::send(&sender, message);
        sum = sum.wrapping_add(poll_all(&mut receivers, &mut cx));
    }
    sum
}

/// A stream waits, and is polled `times` times without being told. Answers how often it waited.
pub fn untold(kind: Kind, times: u64) -> u64 {
    let (_sender, mut receivers) = <Original as Channel<u64>>::make(16, 1);
    let waker = kind.waker();
    let mut cx = Context::from_waker(&waker);
    let mut waited = 0;
    let _ = poll(&mut receivers[0], &mut cx);
    for _ in 0..times {
        waited += u64::from(poll(&mut receivers[0], &mut cx).is_pending());
    }
    waited
}

fn poll_all(receivers: &mut [Receiver<u64>], cx: &mut Context<'_>) -> u64 {
    let mut sum = 0u64;
    for receiver in receivers {
        if let Poll::Ready(Some(Ok(number))) = poll(receiver, cx) {
            sum = sum.wrapping_add(number);
        }
    }
    sum
}

#[inline]
fn poll(
    receiver: &mut Receiver<u64>,
    cx: &mut Context<'_>,
) -> Poll<Option<Result<u64, async_broadcast::RecvError>>> {
    Pin::new(receiver).poll_recv(cx)
}
