//! Messages that are sent one by one, and as lists, which only the port has a call for.

use crate::original::Original;
use crate::{channel::Channel, tokio::Tokio};
use async_broadcast::Sender;

/// In each round sends so many messages one by one. Counts those that were accepted.
pub fn one_by_one(messages: u64, receivers: usize, rounds: u64) -> u64 {
    let (mut sender, _receivers) = Original::make(messages as usize + 1, receivers);
    let mut accepted = 0;
    for _ in 0..rounds {
        accepted += (0..messages)
            .filter(|message| is_accepted(&sender, *message))
            .count() as u64;
        make_room(&mut sender, messages);
    }
    accepted
}

/// In each round makes a list of so many messages, and sends them one by one.
pub fn as_a_list(messages: u64, receivers: usize, rounds: u64) -> u64 {
    let (mut sender, _receivers) = Original::make(messages as usize + 1, receivers);
    let mut accepted = 0;
    for _ in 0..rounds {
        let mut list = Vec::with_capacity(messages as usize);
        list.extend(0..messages);
        accepted += list
            .into_iter()
            .filter(|message| is_accepted(&sender, *message))
            .count() as u64;
        make_room(&mut sender, messages);
    }
    accepted
}

/// As `one_by_one`, where the oldest messages make room.
pub fn one_by_one_of_tokio(messages: u64, receivers: usize, rounds: u64) -> u64 {
    let (sender, _receivers) = Tokio::make(messages as usize + 1, receivers);
    let mut accepted = 0;
    for _ in 0..rounds {
        accepted += (0..messages)
            .filter(|message| sender.send(*message).is_ok())
            .count() as u64;
    }
    accepted
}

#[inline]
fn is_accepted(sender: &Sender<u64>, message: u64) -> bool {
    sender.try_broadcast(message).is_ok()
}

/// Drops all messages but the last one, which nobody receives, and makes room for as many more.
fn make_room(sender: &mut Sender<u64>, messages: u64) {
    sender.set_capacity(1);
    sender.set_capacity(messages as usize + 1);
}
