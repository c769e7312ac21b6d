//! The calls of a script's lines.

use crate::channel::Channel;
use crate::words::{name, number, switch};
use async_broadcast::{TryRecvError, TrySendError};

/// The answer to a line.
pub enum Said {
    Text(String),
    NoCall,
    NoMemory,
}

/// The answer to a line after the first.
pub fn answer(channel: &mut Channel, line: &[u8]) -> Said {
    let words = crate::words::of(line);
    match words.as_slice() {
        [b"capacity", count] => set_capacity(channel, count),
        [call, rest @ ..] => {
            let said = of_messages(channel, call, rest)
                .or_else(|| of_receivers(channel, call, rest))
                .or_else(|| of_channel(channel, call, rest));
            said.map_or(Said::NoCall, Said::Text)
        }
        [] => Said::NoCall,
    }
}

fn set_capacity(channel: &mut Channel, count: &[u8]) -> Said {
    match number(count).and_then(|count| usize::try_from(count).ok()) {
        None | Some(0) => Said::NoCall,
        Some(count) if channel.set_capacity(count) => Said::Text("ok".to_string()),
        Some(_) => Said::NoMemory,
    }
}

fn of_messages(channel: &mut Channel, call: &[u8], rest: &[&[u8]]) -> Option<String> {
    match (call, rest) {
        (b"send", [message]) => Some(send(channel, number(message)?)),
        (b"sendall", [_, ..]) => {
            let messages: Option<Vec<u64>> = rest.iter().map(|word| number(word)).collect();
            Some(send_all(channel, &messages?))
        }
        (b"recv", [from]) => receive(channel, name(from)?),
        _ => None,
    }
}

fn send(channel: &Channel, message: u64) -> String {
    // Without a sender the channel is closed.
    let Some(sender) = channel.sender() else {
        return format!("closed {message}");
    };
    match sender.try_broadcast(message) {
        Ok(None) => "ok".to_string(),
        Ok(Some(oldest)) => format!("ok dropped {oldest}"),
        Err(TrySendError::Full(message)) => format!("full {message}"),
        Err(TrySendError::Closed(message)) => format!("closed {message}"),
        Err(TrySendError::Inactive(message)) => format!("inactive {message}"),
    }
}

/// All or none, which the crate has no call for.
fn send_all(channel: &Channel, messages: &[u64]) -> String {
    let Some(sender) = channel.sender().filter(|sender| !sender.is_closed()) else {
        return "closed all".to_string();
    };
    if sender.receiver_count() == 0 {
        return "inactive all".to_string();
    }
    if messages.len() > sender.capacity() - sender.len() {
        return "full all".to_string();
    }
    for message in messages {
        let sent = sender.try_broadcast(*message);
        assert!(matches!(sent, Ok(None)), "there was room for all");
    }
    "ok".to_string()
}

fn receive(channel: &mut Channel, from: &[u8]) -> Option<String> {
    let Some(receiver) = channel.receivers.get_mut(from)? else {
        return Some("closed".to_string());
    };
    Some(match receiver.try_recv() {
        Ok(message) => format!("got {message}"),
        Err(TryRecvError::Overflowed(count)) => format!("overflowed {count}"),
        Err(TryRecvError::Empty) => "empty".to_string(),
        Err(TryRecvError::Closed) => "closed".to_string(),
    })
}

fn of_receivers(channel: &mut Channel, call: &[u8], rest: &[&[u8]]) -> Option<String> {
    match (call, rest) {
        (b"clone", [from, to]) => {
            let to = free(channel, to)?;
            let copy = channel.receivers.get(name(from)?)?.clone();
            channel.receivers.insert(to, copy);
        }
        (b"new", [to]) => {
            let to = free(channel, to)?;
            let made = channel.new_receiver();
            channel.receivers.insert(to, made);
        }
        (b"drop", [which]) => drop(channel.receivers.remove(name(which)?)?),
        (b"deactivate", [which]) => {
            let receiver = channel.receivers.remove(name(which)?)?;
            let inactive = receiver.map(|receiver| receiver.deactivate());
            channel.inactive.push(inactive);
        }
        (b"activate", [to]) => {
            let to = free(channel, to)?;
            let Some(inactive) = channel.inactive.pop() else {
                return Some("gone".to_string());
            };
            let receiver = inactive.map(|inactive| inactive.activate());
            channel.receivers.insert(to, receiver);
        }
        (b"dropinactive", []) => drop(channel.inactive.pop()),
        _ => return None,
    }
    Some("ok".to_string())
}

/// This name, if it is one and no receiver has it.
fn free(channel: &Channel, word: &[u8]) -> Option<Vec<u8>> {
    let word = name(word)?;
    (!channel.receivers.contains_key(word)).then(|| word.to_vec())
}

fn of_channel(channel: &mut Channel, call: &[u8], rest: &[&[u8]]) -> Option<String> {
    match (call, rest) {
        (b"len", []) => return Some(channel.len().to_string()),
        (b"close", []) => return Some(channel.close().to_string()),
        (b"newsender", []) => {
            let sender = channel.new_sender();
            channel.senders.push(sender);
        }
        (b"dropsender", []) => drop(channel.senders.pop()),
        (b"overflow", [on]) => channel.set_overflow(switch(on)?),
        (b"await", [on]) => channel.set_await_active(switch(on)?),
        _ => return None,
    }
    Some("ok".to_string())
}
