//! The wakers that polls are given.

use std::sync::atomic::{AtomicBool, Ordering};
use std::sync::Arc;
use std::task::{Wake, Waker};

/// What a waker does.
#[derive(Clone, Copy)]
pub enum Kind {
    /// It belongs to a task, and marks it as woken.
    Task,
    /// Nothing.
    Silent,
}

/// A task that nobody runs.
struct Task {
    is_woken: AtomicBool,
}

impl Wake for Task {
    fn wake(self: Arc<Self>) {
        self.wake_by_ref();
    }
    fn wake_by_ref(self: &Arc<Self>) {
        self.is_woken.swap(true, Ordering::AcqRel);
    }
}

impl Kind {
    /// A waker of this kind.
    pub fn waker(self) -> Waker {
        match self {
            Kind::Task => Waker::from(Arc::new(Task {
                is_woken: AtomicBool::new(false),
            })),
            Kind::Silent => Waker::noop().clone(),
        }
    }

    /// The title of a row that uses it.
    pub fn title(self, title: &str) -> String {
        match self {
            Kind::Task => title.to_string(),
            Kind::Silent => format!("{title}, wakers do nothing"),
        }
    }
}
