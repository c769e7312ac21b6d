//! tokio's broadcast channel.

use crate::counted::{bytes, bytes_of_each};
use crate::{titles, Rows, MANY, QUEUED, QUEUED_FOR_READERS, READERS};
use std::future::Future;
use std::mem::size_of_val;
use std::task::{Context, Waker};
use tokio::sync::broadcast::{channel, Receiver};

/// The bytes of a channel that is full, without the list of its receivers.
fn of_filled(capacity: usize, receivers: usize) -> f64 {
    let list = receivers * size_of::<Receiver<u64>>();
    let all = bytes(1, || {
        let (sender, first) = channel(capacity);
        let mut all = Vec::with_capacity(receivers);
        all.push(first);
        all.extend((1..receivers).map(|_| sender.subscribe()));
        for at in 0..capacity {
            let _ = sender.send(at as u64);
        }
        (sender, all)
    });
    all - list as f64
}

/// The bytes of each of so many messages, in a channel of the next power of two.
fn of_message(count: usize, receivers: usize) -> f64 {
    (of_filled(count, receivers) - of_filled(1, receivers)) / (count - 1) as f64
}

pub fn rows() -> Rows {
    let mut rows = vec![
        (titles::idle(), bytes(1, || channel::<u64>(1))),
        (titles::message(), of_message(QUEUED, 1)),
        (
            titles::message_of_many(),
            of_message(QUEUED_FOR_READERS, READERS),
        ),
    ];
    rows.extend(MANY.map(|count| {
        let (sender, _receiver) = channel::<u64>(16);
        let each = bytes_of_each(count, |_| sender.subscribe());
        (titles::receiver(count), each)
    }));
    rows.push(("a receive that waits, in a box".to_string(), waiting()));
    rows.extend(handles());
    rows
}

/// What receives take that were polled once, and wait.
fn waiting() -> f64 {
    let mut cx = Context::from_waker(Waker::noop());
    let (sender, _receiver) = channel::<u64>(16);
    let mut all: Vec<_> = (0..MANY[0]).map(|_| sender.subscribe()).collect();
    let mut each = all.iter_mut();
    bytes_of_each(MANY[0], |_| {
        let mut receive = Box::pin(each.next().expect("there are as many").recv());
        assert!(receive.as_mut().poll(&mut cx).is_pending());
        receive
    })
}

fn handles() -> Rows {
    let (sender, mut receiver) = channel::<u64>(1);
    let of_sender = size_of_val(&sender);
    let of_receiver = size_of_val(&receiver);
    let of_receive = size_of_val(&receiver.recv());
    vec![
        (titles::handle("Sender"), of_sender as f64),
        (titles::handle("Receiver"), of_receiver as f64),
        (titles::handle("receive"), of_receive as f64),
    ]
}
