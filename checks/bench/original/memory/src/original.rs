//! async-broadcast 0.7.2.

use crate::counted::{bytes, bytes_of_each};
use crate::{titles, Rows, MANY, QUEUED, QUEUED_FOR_READERS, READERS};
use async_broadcast::{broadcast, Receiver, Sender};
use std::future::Future;
use std::mem::size_of_val;
use std::pin::Pin;
use std::task::{Context, Waker};

type Ends = (Sender<u64>, Vec<Receiver<u64>>);

fn channel(capacity: usize, receivers: usize) -> Ends {
    let (sender, receiver) = broadcast(capacity);
    let mut all = Vec::with_capacity(receivers);
    all.resize(receivers, receiver);
    (sender, all)
}

/// The bytes of a channel and its messages, without the list of its receivers.
fn of_filled(capacity: usize, receivers: usize) -> f64 {
    let list = receivers * size_of::<Receiver<u64>>();
    let all = bytes(1, || {
        let (sender, receivers) = channel(capacity, receivers);
        for at in 0..capacity {
            let _ = sender.try_broadcast(at as u64);
        }
        (sender, receivers)
    });
    all - list as f64
}

/// The bytes of each of so many messages.
fn of_message(count: usize, receivers: usize) -> f64 {
    (of_filled(count, receivers) - of_filled(1, receivers)) / (count - 1) as f64
}

pub fn rows() -> Rows {
    let mut rows = vec![
        (titles::idle(), bytes(1, || broadcast::<u64>(1))),
        (titles::message(), of_message(QUEUED, 1)),
        (
            titles::message_of_many(),
            of_message(QUEUED_FOR_READERS, READERS),
        ),
    ];
    rows.extend(MANY.map(|count| (titles::receiver(count), of_receiver(count))));
    rows.extend(waiting_receives());
    rows.extend(waiting_sends());
    rows.extend(handles());
    rows
}

fn of_receiver(count: usize) -> f64 {
    let (_sender, receiver) = broadcast::<u64>(16);
    bytes_of_each(count, |_| receiver.clone())
}

/// What receives take that were polled once, and wait.
fn waiting_receives() -> Rows {
    let mut cx = Context::from_waker(Waker::noop());
    let (_sender, mut receivers) = channel(16, MANY[0]);
    let mut each = receivers.iter_mut();
    let boxed = bytes_of_each(MANY[0], |_| {
        let mut receive = each.next().expect("there are as many").recv();
        assert!(receive.as_mut().poll(&mut cx).is_pending());
        receive
    });
    let (_sender, mut receivers) = channel(16, MANY[0]);
    let mut each = receivers.iter_mut();
    let streams = bytes_of_each(MANY[0], |_| {
        let receiver = each.next().expect("there are as many");
        assert!(Pin::new(receiver).poll_recv(&mut cx).is_pending());
    });
    vec![
        ("a receive that waits, in a box".to_string(), boxed),
        ("a stream that waits".to_string(), streams),
    ]
}

/// What sends take that were polled once, and wait.
fn waiting_sends() -> Rows {
    let mut cx = Context::from_waker(Waker::noop());
    let (sender, _receivers) = channel(1, 1);
    let _ = sender.try_broadcast(0);
    let boxed = bytes_of_each(MANY[0], |_| {
        let mut send = sender.broadcast(1);
        assert!(send.as_mut().poll(&mut cx).is_pending());
        send
    });
    vec![("a send that waits, in a box".to_string(), boxed)]
}

fn handles() -> Rows {
    let (sender, mut receiver) = broadcast::<u64>(1);
    vec![
        (titles::handle("Sender"), size_of_val(&sender) as f64),
        (titles::handle("Receiver"), size_of_val(&receiver) as f64),
        (
            titles::handle("receive"),
            size_of_val(&receiver.recv_direct()) as f64,
        ),
        (
            titles::handle("send"),
            size_of_val(&sender.broadcast_direct(1)) as f64,
        ),
    ]
}
