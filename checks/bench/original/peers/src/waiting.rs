//! Many receives that wait at the same time.

use crate::polls::{number, Polled};
use crate::waker::Kind;
use std::future::Future;
use std::pin::Pin;
use std::task::Context;

/// In which order those that wait give up.
#[derive(Clone, Copy)]
pub enum Order {
    FirstFirst,
    LastFirst,
    SecondHalfFirst,
}

impl Order {
    /// The words for it in a title.
    pub fn words(self) -> &'static str {
        match self {
            Order::FirstFirst => "the first first",
            Order::LastFirst => "the last first",
            Order::SecondHalfFirst => "the second half first",
        }
    }

    /// The numbers below `count`, in this order.
    fn of(self, count: usize) -> Vec<usize> {
        match self {
            Order::FirstFirst => (0..count).collect(),
            Order::LastFirst => (0..count).rev().collect(),
            Order::SecondHalfFirst => (count / 2..count).chain(0..count / 2).collect(),
        }
    }
}

/// Futures that stay where they are until they are dropped, each by itself.
struct Waiting<F>(Box<[Option<F>]>);

impl<F: Future> Waiting<F> {
    fn new(futures: impl Iterator<Item = F>) -> Self {
        Waiting(futures.map(Some).collect())
    }

    /// The future of this number.
    #[inline]
    fn at(&mut self, at: usize) -> Option<Pin<&mut F>> {
        // SAFETY: nothing moves it out of the box, and the box drops it where it stands.
        self.0[at]
            .as_mut()
            .map(|future| unsafe { Pin::new_unchecked(future) })
    }

    /// Polls all, and answers what `number` makes of the answers.
    fn poll_all(
        &mut self,
        cx: &mut Context<'_>,
        number: impl Fn(std::task::Poll<F::Output>) -> u64,
    ) -> u64 {
        let mut sum = 0u64;
        for at in 0..self.0.len() {
            if let Some(future) = self.at(at) {
                sum = sum.wrapping_add(number(future.poll(cx)));
            }
        }
        sum
    }

    fn drop_at(&mut self, at: usize) {
        self.0[at] = None;
    }
}

/// So many receives wait, and one message serves them all, `times` times. Sums what was received.
pub fn served<C: Polled>(kind: Kind, waiting: usize, times: u64) -> u64 {
    let (sender, mut receivers) = C::make(16, waiting);
    let waker = kind.waker();
    let mut cx = Context::from_waker(&waker);
    let mut sum = 0u64;
    for message in 0..times {
        let mut all = Waiting::new(receivers.iter_mut().map(C::receiving));
        all.poll_all(&mut cx, number::<C>);
        C::send(&sender, message);
        sum = sum.wrapping_add(all.poll_all(&mut cx, number::<C>));
    }
    sum
}

/// So many receives wait, and give up in this order, `times` times. Answers how many waited.
pub fn leave<C: Polled>(order: Order, waiting: usize, times: u64) -> u64 {
    let (_sender, mut receivers) = C::make(16, waiting);
    let waker = Kind::Silent.waker();
    let mut cx = Context::from_waker(&waker);
    let leaving = order.of(waiting);
    let mut waited = 0;
    for _ in 0..times {
        let mut all = Waiting::new(receivers.iter_mut().map(C::receiving));
        waited += all.poll_all(&mut cx, |polled| u64::from(polled.is_pending()));
        leaving.iter().for_each(|at| all.drop_at(*at));
    }
    waited
}

/// One receive waits, and is polled `times` times without being told. Answers how often it waited.
pub fn untold<C: Polled>(kind: Kind, times: u64) -> u64 {
    let (_sender, mut receivers) = C::make(16, 1);
    let waker = kind.waker();
    let mut cx = Context::from_waker(&waker);
    let mut all = Waiting::new(receivers.iter_mut().map(C::receiving));
    all.poll_all(&mut cx, number::<C>);
    (0..times)
        .map(|_| all.poll_all(&mut cx, |polled| u64::from(polled.is_pending())))
        .sum()
}
