//! Receivers that come and go.

use crate::channel::Channel;
use crate::original::Original;
use crate::tokio::Tokio;
use async_broadcast::{Receiver, Sender};
use std::hint::black_box;

/// A channel in which so many messages wait, and its one receiver.
fn filled(queued: u64) -> (Sender<u64>, Receiver<u64>) {
    let (sender, receiver) = async_broadcast::broadcast(queued.max(1) as usize);
    for message in 0..queued {
        Original::send(&sender, message);
    }
    (sender, receiver)
}

/// Clones a receiver and drops the clone, `times` times. Answers the channel's length.
pub fn clone_and_drop(queued: u64, times: u64) -> u64 {
    let (sender, receiver) = filled(queued);
    for _ in 0..times {
        drop(black_box(receiver.clone()));
    }
    sender.len() as u64
}

/// Makes a receiver that gets only what comes later, and drops it.
pub fn new_and_drop(queued: u64, times: u64) -> u64 {
    let (sender, receiver) = filled(queued);
    for _ in 0..times {
        drop(black_box(receiver.new_receiver()));
    }
    sender.len() as u64
}

/// As `new_and_drop`.
pub fn new_and_drop_of_tokio(queued: u64, times: u64) -> u64 {
    let (sender, receivers) = Tokio::make(queued.max(1) as usize, 1);
    for message in 0..queued {
        Tokio::send(&sender, message);
    }
    for _ in 0..times {
        drop(black_box(receivers[0].resubscribe()));
    }
    queued
}

/// Each time a receiver that has all messages to receive is cloned, and leaves. Sums what was received.
pub fn leave_owing(queued: u64, times: u64) -> u64 {
    let (sender, mut owing) = filled(0);
    let mut sender = sender;
    sender.set_capacity(queued.max(1) as usize);
    let mut reader = owing.clone();
    let mut sum = 0u64;
    for _ in 0..times {
        for message in 0..queued {
            Original::send(&sender, message);
        }
        sum = sum.wrapping_add(received(&mut reader, queued));
        owing = owing.clone();
        sum = sum.wrapping_add(received(&mut owing, queued));
    }
    sum
}

fn received(receiver: &mut Receiver<u64>, count: u64) -> u64 {
    (0..count).fold(0u64, |sum, _| {
        sum.wrapping_add(Original::receive(receiver).weight())
    })
}
