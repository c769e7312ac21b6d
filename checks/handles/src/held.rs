//! Futures of one channel that are held between lines: sends, and one receive.
use crate::answer::Answer;
use crate::channel::poll_once;
use async_broadcast::{Receiver, Recv, Send, Sender};
use std::pin::Pin;

/// The handles that only make futures.
#[derive(Default)]
pub struct Makers {
    pub sender: Option<Sender<u64>>,
    pub receiver: Option<Receiver<u64>>,
}

/// The futures. A send that was answered is not polled again, since the original panics then.
pub struct Held<'a> {
    sender: Option<&'a Sender<u64>>,
    // Borrowed by the receive, once.
    receiver: Option<&'a mut Receiver<u64>>,
    sends: Vec<Option<(Pin<Box<Send<'a, u64>>>, bool)>>,
    receive: Option<Pin<Box<Recv<'a, u64>>>>,
}

impl<'a> Held<'a> {
    pub fn new(makers: &'a mut Makers) -> Self {
        Held {
            sender: makers.sender.as_ref(),
            receiver: makers.receiver.as_mut(),
            sends: Vec::new(),
            receive: None,
        }
    }

    /// How many sends were begun.
    pub fn sends(&self) -> usize {
        self.sends.len()
    }

    /// A call on a held send. `None`: there is no such call.
    pub fn ask_send(&mut self, index: usize, method: &str, msg: u64) -> Option<Answer> {
        match method {
            "begin" | "begin_boxed" => {
                self.sends.push(Some((self.sender?.broadcast(msg), false)));
                Some(Answer::Made(self.sends.len() - 1))
            }
            "poll" => {
                let (send, is_answered) = self.sends.get_mut(index)?.as_mut()?;
                if *is_answered {
                    return None;
                }
                let answer = Answer::of_poll(poll_once(send.as_mut()), Answer::of_send);
                *is_answered = answer != Answer::Pending;
                Some(answer)
            }
            "drop" => {
                *self.sends.get_mut(index)? = None;
                Some(Answer::Done)
            }
            _ => None,
        }
    }

    /// A call on the held receive. `None`: there is no such call.
    pub fn ask_recv(&mut self, method: &str) -> Option<Answer> {
        match method {
            "begin" | "begin_boxed" => {
                self.receive = Some(self.receiver.take()?.recv());
                Some(Answer::Made(0))
            }
            "poll" => {
                let receive = self.receive.as_mut()?;
                Some(Answer::of_poll(poll_once(receive.as_mut()), Answer::of_recv))
            }
            "drop" => {
                drop(self.receive.take()?);
                Some(Answer::Done)
            }
            _ => None,
        }
    }
}
