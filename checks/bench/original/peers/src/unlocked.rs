//! The port's channel without a lock: loops of calls in a static library of its own, which is linked
//! in place of a crate (checks/bench/crates/workloads).

use crate::rows::{self, Row};
use crate::titles;
use crate::waker::Kind;

extern "C" {
    fn bcast_bench_step(cap: u64, receivers: u64, messages: u64) -> u64;
    fn bcast_bench_batch(cap: u64, receivers: u64, rounds: u64) -> u64;
    fn bcast_bench_overwrite(cap: u64, messages: u64) -> u64;
    fn bcast_bench_lag(cap: u64, rounds: u64) -> u64;
    fn bcast_bench_clone_drop(queued: u64, times: u64) -> u64;
    fn bcast_bench_new_drop(queued: u64, times: u64) -> u64;
    fn bcast_bench_leave(queued: u64, times: u64) -> u64;
    fn bcast_bench_recapacity(queued: u64, times: u64) -> u64;
    fn bcast_bench_grow(capacity: u64, times: u64) -> u64;
    fn bcast_bench_shrink(capacity: u64, times: u64) -> u64;
    fn bcast_bench_pending(times: u64) -> u64;
    fn bcast_bench_poll_told(times: u64) -> u64;
    fn bcast_bench_send_told(times: u64) -> u64;
}

/// What one of the loops answers. They take any numbers; where memory is refused they answer the
/// greatest number, and the checksums differ.
macro_rules! call {
    ($name:ident($($number:expr),*)) => {
        // SAFETY: a loop has its own channel, and takes and answers numbers alone.
        unsafe { $name($($number),*) }
    };
}

pub fn rows() -> Vec<Row> {
    let mut all = messages();
    all.extend([0, 10, 1_000, 100_000].map(|queued| {
        titles::clone_and_drop(queued, |queued, times| {
            call!(bcast_bench_clone_drop(queued, times))
        })
    }));
    for queued in [10, 1_000, 100_000] {
        all.extend(of_size(queued));
    }
    all.extend([10, 1_000].map(|queued| {
        titles::leave_owing(queued, |queued, times| {
            call!(bcast_bench_leave(queued, times))
        })
    }));
    all.extend(
        [16, 1_000, 100_000]
            .map(|most| titles::grow(most, |most, times| call!(bcast_bench_grow(most, times)))),
    );
    let kind = Kind::Silent;
    all.push(titles::pending(kind, |times| {
        call!(bcast_bench_pending(times))
    }));
    all.push(titles::receive_told(kind, |times| {
        call!(bcast_bench_poll_told(times))
    }));
    all.push(titles::send_told(kind, |times| {
        call!(bcast_bench_send_told(times))
    }));
    all
}

fn messages() -> Vec<Row> {
    let mut all = Vec::new();
    for (capacity, receivers) in rows::SENT {
        let (cap, count) = (capacity as u64, receivers as u64);
        all.push(titles::step(capacity, receivers, move |times| {
            call!(bcast_bench_step(cap, count, times))
        }));
        all.push(titles::batch(capacity, receivers, move |times| {
            call!(bcast_bench_batch(cap, count, times))
        }));
    }
    for capacity in [16, 1024] {
        let cap = capacity as u64;
        all.push(titles::overwrite(capacity, move |times| {
            call!(bcast_bench_overwrite(cap, times))
        }));
        all.push(titles::lag(capacity, move |times| {
            call!(bcast_bench_lag(cap, times))
        }));
    }
    all
}

fn of_size(size: u64) -> [Row; 3] {
    [
        titles::new_and_drop(size, |queued, times| {
            call!(bcast_bench_new_drop(queued, times))
        }),
        titles::set_capacity(size, |queued, times| {
            call!(bcast_bench_recapacity(queued, times))
        }),
        titles::shrink(size, |most, times| call!(bcast_bench_shrink(most, times))),
    ]
}
