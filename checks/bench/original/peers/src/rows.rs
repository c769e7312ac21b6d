//! The rows that each channel has. Titles are the same in all channels and in the port's `timings`.

use crate::channel::Channel;
use crate::crossbeam::FanOut;
use crate::message::Message;
use crate::original::Original;
use crate::overflow::Overflowing;
use crate::polls::Polled;
use crate::tokio::Tokio;
use crate::waiting::Order;
use crate::waker::Kind;
use crate::{capacity, lists, loops, overflow, polls, readers, sends, streams, titles, waiting};
use std::sync::Arc;

/// A loop of calls on a channel of its own.
pub struct Row {
    pub title: String,
    /// How many operations one repetition has.
    pub operations: u64,
    /// Repeats it so often, and answers a checksum.
    pub run: Box<dyn Fn(u64) -> u64>,
}

/// How many messages most channels keep.
const CAPACITY: usize = 16;

/// How many wait, or stay, in rows that tell whether a cost grows.
const SIZES: [u64; 3] = [10, 1_000, 100_000];

/// Capacities and receivers of the rows in which numbers are sent and received.
pub const SENT: [(usize, usize); 8] = [
    (16, 1),
    (16, 8),
    (16, 64),
    (16, 1_000),
    (16, 10_000),
    (1024, 1),
    (1024, 8),
    (1024, 64),
];

pub fn row(title: impl Into<String>, operations: u64, run: impl Fn(u64) -> u64 + 'static) -> Row {
    Row {
        title: title.into(),
        operations,
        run: Box::new(run),
    }
}

/// The rows of the channel of this name.
pub fn of(channel: &str) -> Option<Vec<Row>> {
    match channel {
        "original" => Some(of_original()),
        "tokio" => Some(of_tokio()),
        "crossbeam" => Some(of_crossbeam()),
        #[cfg(feature = "unlocked")]
        "unlocked" => Some(crate::unlocked::rows()),
        _ => None,
    }
}

fn of_original() -> Vec<Row> {
    let mut rows = messages::<Original>();
    rows.extend(overflowing::<Original>());
    rows.extend(cloned::<Original>());
    rows.extend(handles::<Original>());
    rows.extend(coming_and_going());
    rows.extend(capacities());
    rows.extend(one_by_one("sends one by one", lists::one_by_one));
    rows.extend(one_by_one("a list", lists::as_a_list));
    for kind in [Kind::Task, Kind::Silent] {
        rows.extend(polled::<Original>(kind));
        rows.extend(told_sends(kind));
        rows.extend([1, 8, 64].map(|waiting| {
            titles::told_at_once(kind, waiting, move |times| {
                streams::told(kind, waiting, times)
            })
        }));
        rows.push(titles::untold(kind, move |times| {
            streams::untold(kind, times)
        }));
    }
    rows.extend(many_waiting::<Original>());
    rows.push(row("a stream waits, send tells it, ready", 1, |times| {
        streams::told(Kind::Silent, 1, times)
    }));
    rows.extend(SIZES.map(|count| {
        let title = format!("{count} sends wait, and are accepted in order, each");
        row(title, count, move |times| {
            sends::served(count as usize, times)
        })
    }));
    rows
}

fn of_tokio() -> Vec<Row> {
    let mut rows = messages::<Tokio>();
    rows.extend(overflowing::<Tokio>());
    rows.extend(cloned::<Tokio>());
    rows.extend(handles::<Tokio>());
    rows.extend(SIZES.map(|queued| titles::new_and_drop(queued, readers::new_and_drop_of_tokio)));
    rows.extend(one_by_one("sends one by one", lists::one_by_one_of_tokio));
    for kind in [Kind::Task, Kind::Silent] {
        rows.extend(polled::<Tokio>(kind));
        rows.extend([1, 8, 64].map(|count| {
            titles::told_at_once(kind, count, move |times| {
                waiting::served::<Tokio>(kind, count, times)
            })
        }));
        rows.push(titles::untold(kind, move |times| {
            waiting::untold::<Tokio>(kind, times)
        }));
    }
    rows.extend(many_waiting::<Tokio>());
    rows
}

fn of_crossbeam() -> Vec<Row> {
    let mut rows = messages::<FanOut>();
    rows.extend(cloned::<FanOut>());
    rows.extend(handles::<FanOut>());
    rows
}

/// Numbers that are sent and received.
fn messages<C: Channel<u64> + 'static>() -> Vec<Row> {
    SENT.into_iter()
        .flat_map(|(capacity, receivers)| {
            [
                titles::step(capacity, receivers, move |times| {
                    loops::step::<u64, C>(capacity, receivers, times)
                }),
                titles::batch(capacity, receivers, move |times| {
                    loops::batch::<u64, C>(capacity, receivers, times)
                }),
            ]
        })
        .collect()
}

/// Messages that are cloned for each receiver.
fn cloned<C: Channel<String> + Channel<Arc<u64>> + 'static>() -> Vec<Row> {
    [1, 8, 64]
        .into_iter()
        .flat_map(|receivers| {
            [
                cloned_step::<String, C>("a text of 32 bytes", receivers),
                cloned_step::<Arc<u64>, C>("an Arc", receivers),
            ]
        })
        .collect()
}

fn cloned_step<T: Message, C: Channel<T> + 'static>(what: &str, receivers: usize) -> Row {
    let title = format!("step cap {CAPACITY} R {receivers}, {what}");
    row(title, receivers as u64 + 1, move |times| {
        loops::step::<T, C>(CAPACITY, receivers, times)
    })
}

/// Full channels that drop their oldest message.
fn overflowing<C: Overflowing + 'static>() -> Vec<Row> {
    [16, 1024]
        .into_iter()
        .flat_map(|capacity| {
            [
                titles::overwrite(capacity, move |times| {
                    overflow::overwrite::<C>(capacity, times)
                }),
                titles::lag(capacity, move |times| overflow::lag::<C>(capacity, times)),
            ]
        })
        .collect()
}

/// Handles and channels that are made and dropped.
fn handles<C: Channel<u64, Sender: Clone> + 'static>() -> Vec<Row> {
    vec![
        row("clone+drop of a sender", 1, loops::clone_sender::<C>),
        row("make a channel of 16, drop it", 1, |times| {
            loops::make_and_drop::<C>(CAPACITY, times)
        }),
    ]
}

fn coming_and_going() -> Vec<Row> {
    let mut rows: Vec<Row> = [0, 10, 1_000, 100_000]
        .map(|queued| titles::clone_and_drop(queued, readers::clone_and_drop))
        .into();
    rows.extend(SIZES.map(|queued| titles::new_and_drop(queued, readers::new_and_drop)));
    rows.extend([10, 1_000].map(|queued| titles::leave_owing(queued, readers::leave_owing)));
    rows
}

fn capacities() -> Vec<Row> {
    let mut rows: Vec<Row> = SIZES
        .map(|queued| titles::set_capacity(queued, capacity::set))
        .into();
    rows.extend([16, 1_000, 100_000].map(|most| titles::grow(most, capacity::grow)));
    rows.extend(SIZES.map(|most| titles::shrink(most, capacity::shrink)));
    rows
}

fn one_by_one(what: &str, run: fn(u64, usize, u64) -> u64) -> Vec<Row> {
    [(16, 1), (16, 64), (1_000, 1), (1_000, 64)]
        .map(|(count, receivers)| {
            let title = match what {
                "a list" => format!("a list of {count}, R {receivers}, each"),
                _ => format!("{count} {what}, R {receivers}, each"),
            };
            row(title, count, move |times| run(count, receivers, times))
        })
        .into()
}

/// Receives that are polled one at a time.
fn polled<C: Polled + 'static>(kind: Kind) -> Vec<Row> {
    vec![
        row(
            kind.title("send+recv futures, always ready"),
            1,
            move |times| polls::ready::<C>(kind, times),
        ),
        titles::pending(kind, move |times| polls::pending::<C>(kind, times)),
        titles::receive_told(kind, move |times| polls::receive_told::<C>(kind, times)),
    ]
}

fn told_sends(kind: Kind) -> Vec<Row> {
    vec![titles::send_told(kind, move |times| {
        sends::told(kind, times)
    })]
}

/// Receives that wait together. The port has these rows through handles and without a lock.
fn many_waiting<C: Polled + 'static>() -> Vec<Row> {
    let served = SIZES.map(|count| {
        let title = format!("{count} receivers wait, and get one message, each");
        row(title, count, move |times| {
            waiting::served::<C>(Kind::Silent, count as usize, times)
        })
    });
    let orders = [Order::FirstFirst, Order::LastFirst, Order::SecondHalfFirst];
    let left = orders.into_iter().flat_map(|order| {
        SIZES.map(|count| {
            let title = format!("{count} receivers wait, and leave, {}, each", order.words());
            row(title, count, move |times| {
                waiting::leave::<C>(order, count as usize, times)
            })
        })
    });
    served.into_iter().chain(left).collect()
}
