//! One channel: the program that keeps it, the messages that it has by number, and who waits.
mod receives;
mod sends;

use std::collections::HashMap;
use std::io::{Error, Result};
use std::mem;
use std::ops::ControlFlow;
use std::sync::{Condvar, Mutex, MutexGuard, PoisonError};
use std::task::Waker;
use std::thread;

use crate::messages::Messages;
use crate::program::Program;

#[derive(Debug)]
pub(crate) struct Channel<T> {
    state: Mutex<State<T>>,
    /// Notified after each call, for threads that wait in a blocking call.
    changed: Condvar,
}

#[derive(Debug)]
struct State<T> {
    program: Program,
    messages: Messages<T>,
    /// The wakers of polls that wait, by the names of their listeners in views.
    wakers: HashMap<String, Waker>,
    /// The wakers of those who were told, to be called when the lock is open.
    told: Vec<Waker>,
}

impl<T> State<T> {
    /// Makes a call; `read` says what the words of its reply mean, if they are one.
    fn ask<R>(
        &mut self,
        call: &str,
        read: impl FnOnce(&mut State<T>, &[&str]) -> Option<R>,
    ) -> Result<R> {
        let (reply, view) = self.program.ask(call)?;
        self.messages.keep_only(&view.queue);
        let words: Vec<&str> = reply.split(' ').collect();
        let meaning = read(self, &words)
            .ok_or_else(|| Error::other(format!("{call}: {reply:?} is no reply to it")))?;
        for listener in &view.told {
            self.told.extend(self.wakers.remove(listener));
        }
        self.wakers
            .retain(|listener, _| view.untold.contains(listener));
        Ok(meaning)
    }

    /// Makes a call whose last argument is a message.
    fn offer<R>(
        &mut self,
        call: &str,
        msg: T,
        read: impl FnOnce(&mut State<T>, &[&str]) -> Option<R>,
    ) -> Result<R> {
        let number = self.messages.add(msg);
        self.ask(&format!("{call} {number}"), read)
    }
}

/// Reads the reply of a call that answers only that it was made.
fn made<T>(_: &mut State<T>, words: &[&str]) -> Option<()> {
    matches!(words, ["ok"] | ["-"]).then_some(())
}

fn fail(fault: Error) -> ! {
    panic!("replay: {fault}")
}

impl<T> Channel<T> {
    /// Opens a channel, whose first receiver has the key 0.
    pub(crate) fn open(capacity: usize) -> Channel<T> {
        let state = State {
            program: Program::open(capacity).unwrap_or_else(|fault| fail(fault)),
            messages: Messages::new(),
            wakers: HashMap::new(),
            told: Vec::new(),
        };
        Channel {
            state: Mutex::new(state),
            changed: Condvar::new(),
        }
    }

    fn lock(&self) -> MutexGuard<'_, State<T>> {
        self.state.lock().unwrap_or_else(PoisonError::into_inner)
    }

    /// Opens the lock, then wakes whoever was told and drops what the channel keeps no more.
    fn finish(&self, mut state: MutexGuard<'_, State<T>>) {
        let told = mem::take(&mut state.told);
        let gone = state.messages.take_rest();
        drop(state);
        self.changed.notify_all();
        told.into_iter().for_each(Waker::wake);
        drop(gone);
    }

    /// Makes a call under the lock, and wakes whoever it told.
    fn turn<R>(&self, act: impl FnOnce(&mut State<T>) -> Result<R>) -> Result<R> {
        let mut state = self.lock();
        let result = act(&mut state);
        self.finish(state);
        result
    }

    fn ask<R>(&self, call: &str, read: impl FnOnce(&mut State<T>, &[&str]) -> Option<R>) -> R {
        self.turn(|state| state.ask(call, read))
            .unwrap_or_else(|fault| fail(fault))
    }

    /// Makes an attempt, and makes it anew after each other call until it ends. What it needs comes
    /// back from it by `Continue`.
    fn block<R, A>(
        &self,
        mut needed: A,
        mut attempt: impl FnMut(&mut State<T>, A) -> Result<ControlFlow<R, A>>,
    ) -> R {
        let mut state = self.lock();
        loop {
            match attempt(&mut state, needed).unwrap_or_else(|fault| fail(fault)) {
                ControlFlow::Break(answer) => {
                    self.finish(state);
                    return answer;
                }
                ControlFlow::Continue(again) => needed = again,
            }
            state = self
                .changed
                .wait(state)
                .unwrap_or_else(PoisonError::into_inner);
        }
    }

    /// A call that answers only that it was made.
    pub(crate) fn make(&self, call: &str) {
        self.ask(call, made);
    }

    /// The call of a drop. Where the thread is panicking already, its failure isn't told.
    pub(crate) fn leave(&self, call: &str) {
        if let Err(fault) = self.turn(|state| state.ask(call, made)) {
            assert!(thread::panicking(), "replay: {fault}");
        }
    }

    pub(crate) fn flag(&self, call: &str) -> bool {
        self.ask(call, |_, words| match words {
            ["true"] => Some(true),
            ["false"] => Some(false),
            _ => None,
        })
    }

    pub(crate) fn count(&self, call: &str) -> usize {
        self.ask(call, |_, words| match words {
            [number] => number.parse().ok(),
            _ => None,
        })
    }

    /// A call that gives the key of a new receiver, or the place of a new send.
    pub(crate) fn place(&self, call: &str) -> usize {
        self.ask(call, |_, words| match words {
            ["ok", place] => place.parse().ok(),
            _ => None,
        })
    }
}
