//! The inactive receivers, which keep a channel open and receive nothing.
use std::sync::Arc;

use crate::channel::Channel;
use crate::shared::shared;
use crate::Receiver;

pub struct InactiveReceiver<T> {
    channel: Arc<Channel<T>>,
    /// Whether the channel counts it: until it is activated.
    is_counted: bool,
}

shared!(InactiveReceiver);

impl<T> InactiveReceiver<T> {
    /// The handle of an inactive receiver that is counted already.
    pub(crate) fn of(channel: &Arc<Channel<T>>) -> InactiveReceiver<T> {
        InactiveReceiver {
            channel: channel.clone(),
            is_counted: true,
        }
    }

    pub fn activate(mut self) -> Receiver<T> {
        let key = self.channel.place("Activate");
        self.is_counted = false;
        Receiver::of(&self.channel, key)
    }

    pub fn activate_cloned(&self) -> Receiver<T> {
        Receiver::of(&self.channel, self.channel.place("ActivateCloned"))
    }
}

impl<T> Clone for InactiveReceiver<T> {
    fn clone(&self) -> Self {
        self.channel.make("CloneInactive");
        InactiveReceiver::of(&self.channel)
    }
}

impl<T> Drop for InactiveReceiver<T> {
    fn drop(&mut self) {
        if self.is_counted {
            self.channel.leave("DropInactive");
        }
    }
}
