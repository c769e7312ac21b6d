//! A fan-out: a bounded channel of crossbeam for each receiver, and a send to each of them.

use crate::channel::{Channel, Got};
use crossbeam_channel::{bounded, Receiver, Sender};

pub struct FanOut;

impl<T: Clone> Channel<T> for FanOut {
    type Sender = Vec<Sender<T>>;
    type Receiver = Receiver<T>;

    fn pair(capacity: usize) -> (Vec<Sender<T>>, Receiver<T>) {
        let (sender, receiver) = bounded(capacity);
        (vec![sender], receiver)
    }
    fn make(capacity: usize, receivers: usize) -> (Vec<Sender<T>>, Vec<Receiver<T>>) {
        (0..receivers).map(|_| bounded(capacity)).unzip()
    }
    #[inline]
    fn send(senders: &Vec<Sender<T>>, message: T) {
        if let [others @ .., last] = senders.as_slice() {
            for sender in others {
                let _ = sender.try_send(message.clone());
            }
            let _ = last.try_send(message);
        }
    }
    #[inline]
    fn receive(receiver: &mut Receiver<T>) -> Got<T> {
        receiver.try_recv().map_or(Got::Nothing, Got::Message)
    }
}
