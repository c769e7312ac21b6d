//! A fan-out: a bounded channel of crossbeam for each receiver.

use crate::counted::{bytes, bytes_of_each};
use crate::{titles, Rows, MANY, QUEUED, QUEUED_FOR_READERS, READERS};
use crossbeam_channel::{bounded, Receiver, Sender};

/// The bytes of full channels for so many receivers, without the list of the ends.
fn of_filled(capacity: usize, receivers: usize) -> f64 {
    bytes_of_each(receivers, |_| {
        let (sender, receiver) = bounded(capacity);
        for at in 0..capacity {
            let _ = sender.try_send(at as u64);
        }
        (sender, receiver)
    }) * receivers as f64
}

/// The bytes of each of so many messages.
fn of_message(count: usize, receivers: usize) -> f64 {
    (of_filled(count, receivers) - of_filled(1, receivers)) / (count - 1) as f64
}

pub fn rows() -> Rows {
    let mut rows = vec![
        (titles::idle(), bytes(1, || bounded::<u64>(1))),
        (titles::message(), of_message(QUEUED, 1)),
        (
            titles::message_of_many(),
            of_message(QUEUED_FOR_READERS, READERS),
        ),
    ];
    rows.extend(MANY.map(|count| {
        let each = bytes_of_each(count, |_| bounded::<u64>(16));
        (titles::receiver(count), each)
    }));
    let (sender, receiver) = (size_of::<Sender<u64>>(), size_of::<Receiver<u64>>());
    rows.push((titles::handle("Sender"), sender as f64));
    rows.push((titles::handle("Receiver"), receiver as f64));
    rows
}
