//! Rows of which more than one channel has its own run, each with its title.

use crate::rows::{row, Row};
use crate::waker::Kind;

pub fn step(capacity: usize, receivers: usize, run: impl Fn(u64) -> u64 + 'static) -> Row {
    let title = format!("step cap {capacity} R {receivers}");
    row(title, receivers as u64 + 1, run)
}

pub fn batch(capacity: usize, receivers: usize, run: impl Fn(u64) -> u64 + 'static) -> Row {
    let title = format!("batch cap {capacity} R {receivers}");
    row(title, (receivers as u64 + 1) * capacity as u64, run)
}

pub fn overwrite(capacity: usize, run: impl Fn(u64) -> u64 + 'static) -> Row {
    row(format!("overwrite cap {capacity}"), 1, run)
}

pub fn lag(capacity: usize, run: impl Fn(u64) -> u64 + 'static) -> Row {
    row(format!("lag cap {capacity}"), 5 * capacity as u64 + 1, run)
}

pub fn clone_and_drop(queued: u64, run: impl Fn(u64, u64) -> u64 + 'static) -> Row {
    let title = format!("clone+drop at {queued} queued");
    row(title, 1, move |times| run(queued, times))
}

pub fn new_and_drop(queued: u64, run: impl Fn(u64, u64) -> u64 + 'static) -> Row {
    let title = format!("new_receiver+drop at {queued} queued");
    row(title, 1, move |times| run(queued, times))
}

pub fn leave_owing(queued: u64, run: impl Fn(u64, u64) -> u64 + 'static) -> Row {
    let title = format!("leave owing {queued}, per message");
    row(title, queued, move |times| run(queued, times))
}

pub fn set_capacity(queued: u64, run: impl Fn(u64, u64) -> u64 + 'static) -> Row {
    let title = format!("set_capacity, queue of {queued} kept");
    row(title, 2, move |times| run(queued, times))
}

pub fn grow(most: u64, run: impl Fn(u64, u64) -> u64 + 'static) -> Row {
    let title = format!("make, grow 1 to {most}, send, end");
    row(title, 1, move |times| run(most, times))
}

pub fn shrink(most: u64, run: impl Fn(u64, u64) -> u64 + 'static) -> Row {
    let title = format!("make, fill, shrink {most} to 1, end; per message");
    row(title, most, move |times| run(most, times))
}

pub fn pending(kind: Kind, run: impl Fn(u64) -> u64 + 'static) -> Row {
    row(kind.title("poll a pending receive, drop it"), 1, run)
}

pub fn receive_told(kind: Kind, run: impl Fn(u64) -> u64 + 'static) -> Row {
    row(kind.title("pending receive, send tells it, ready"), 1, run)
}

pub fn send_told(kind: Kind, run: impl Fn(u64) -> u64 + 'static) -> Row {
    row(kind.title("pending send, receive tells it, ready"), 1, run)
}

pub fn told_at_once(kind: Kind, waiting: usize, run: impl Fn(u64) -> u64 + 'static) -> Row {
    let title = format!("{waiting} pending receives told by one send, each");
    row(kind.title(&title), waiting as u64, run)
}

pub fn untold(kind: Kind, run: impl Fn(u64) -> u64 + 'static) -> Row {
    row(
        kind.title("poll a stream that waits and was not told"),
        1,
        run,
    )
}
