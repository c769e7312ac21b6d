//! Sends of async-broadcast that wait.

use crate::channel::Channel;
use crate::original::Original;
use crate::waker::Kind;
use std::future::Future;
use std::pin::{pin, Pin};
use std::task::Context;

/// Each time fills a channel of capacity 1, polls a send of the next number, which waits, receives,
/// polls the send again, and receives. Sums what was received.
pub fn told(kind: Kind, times: u64) -> u64 {
    let (sender, mut receivers) = Original::make(1, 1);
    let receiver = &mut receivers[0];
    let waker = kind.waker();
    let mut cx = Context::from_waker(&waker);
    let mut sum = 0u64;
    for message in 0..times {
        Original::send(&sender, message);
        let mut send = pin!(sender.broadcast_direct(message + 1));
        let _ = send.as_mut().poll(&mut cx);
        sum = sum.wrapping_add(Original::receive(receiver).weight());
        let _ = send.poll(&mut cx);
        sum = sum.wrapping_add(Original::receive(receiver).weight());
    }
    sum
}

/// So many sends wait on a full channel of capacity 1, and each is served by a receive, in order,
/// `times` times. Sums what was received.
pub fn served(waiting: usize, times: u64) -> u64 {
    let (sender, mut receivers) = Original::make(1, 1);
    let receiver = &mut receivers[0];
    let waker = Kind::Silent.waker();
    let mut cx = Context::from_waker(&waker);
    let mut sum = 0u64;
    for _ in 0..times {
        Original::send(&sender, 0);
        let mut sends: Box<[_]> = (0..waiting).map(|_| sender.broadcast_direct(1)).collect();
        for send in &mut sends {
            // SAFETY: the futures stay in their box until it is dropped.
            let _ = unsafe { Pin::new_unchecked(send) }.poll(&mut cx);
        }
        for send in &mut sends {
            sum = sum.wrapping_add(Original::receive(receiver).weight());
            // SAFETY: as above.
            let _ = unsafe { Pin::new_unchecked(send) }.poll(&mut cx);
        }
        sum = sum.wrapping_add(Original::receive(receiver).weight());
    }
    sum
}
