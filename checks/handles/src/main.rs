//! The program `beside`: makes a random script for `handle_calls`, plays it on async-broadcast 0.7.2,
//! and writes the script, and what `handle_calls` has to print for it.
//!
//! `beside SEED LINES SCRIPT EXPECTED`: so many lines, to these two files.

mod answer;
mod channel;
mod held;

use answer::Answer;
use channel::Channel;
use fastrand::Rng;
use held::{Held, Makers};
use std::env;
use std::error::Error;
use std::fs::File;
use std::io::{BufWriter, Write};

/// Calls that every handle has; those that follow have an argument.
const SETTINGS: [&str; 11] = [
    "capacity", "overflow", "await_active", "close", "is_closed", "is_empty", "is_full", "len",
    "receiver_count", "inactive_receiver_count", "sender_count",
];

/// How often a channel is closed by a call: once in so many settings.
const SELDOM: u8 = 12;

/// The files that are written.
struct Output {
    script: BufWriter<File>,
    expected: BufWriter<File>,
}

impl Output {
    /// A line that makes no call.
    fn open(&mut self, line: &str) -> std::io::Result<()> {
        writeln!(self.script, "{line}")?;
        writeln!(self.expected, "{line}")
    }

    fn call(&mut self, line: &str, answer: &Answer) -> std::io::Result<()> {
        writeln!(self.script, "{line}")?;
        writeln!(self.expected, "{line} -> {answer:?}")
    }
}

/// A random call, and what it returned. `None`: there is no such handle, or the call would block.
struct Caller<'a> {
    random: &'a mut Rng,
    // The last message.
    msg: u64,
}

impl Caller<'_> {
    fn msg(&mut self) -> u64 {
        self.msg += 1;
        self.msg
    }

    /// One of a list's numbers, seldom one that isn't there.
    fn index(&mut self, len: usize) -> usize {
        self.random.usize(0..len.max(1))
    }

    /// A call that every handle has, with its argument if it has one.
    fn setting(&mut self) -> (String, &'static str, u64) {
        match self.random.u8(0..6) {
            0 => {
                let capacity = self.random.u64(1..6);
                (format!(" {capacity}"), "set_capacity", capacity)
            }
            1 | 2 => {
                let on = u64::from(self.random.bool());
                (format!(" {on}"), "set_overflow", on)
            }
            3 => {
                let on = u64::from(self.random.bool());
                (format!(" {on}"), "set_await_active", on)
            }
            _ => {
                let mut method = SETTINGS[self.random.usize(0..SETTINGS.len())];
                if method == "close" && self.random.u8(0..SELDOM) > 0 {
                    method = "is_full";
                }
                (String::new(), method, 0)
            }
        }
    }

    fn by_sender(&mut self, channel: &mut Channel) -> Option<(String, Answer)> {
        let index = self.index(channel.senders.len());
        let method = match self.random.u8(0..16) {
            0..6 => "try_broadcast",
            6..8 => "broadcast_blocking",
            8..10 => "broadcast_timeout",
            10 => return self.send_all(channel, index),
            11 => "clone",
            12 => "new_receiver",
            13 => "drop",
            _ => {
                let (text, method, argument) = self.setting();
                let answer = channel.by_sender(index, method, argument)?;
                return Some((format!("sender {index} {method}{text}"), answer));
            }
        };
        if matches!(method, "clone" | "new_receiver" | "drop") {
            let answer = channel.by_sender(index, method, 0)?;
            return Some((format!("sender {index} {method}"), answer));
        }
        let msg = self.msg();
        let answer = channel.by_sender(index, method, msg)?;
        Some((format!("sender {index} {method} {msg}"), answer))
    }

    fn send_all(&mut self, channel: &mut Channel, index: usize) -> Option<(String, Answer)> {
        let count = self.random.usize(0..4);
        let msgs: Vec<u64> = (0..count).map(|_| self.msg()).collect();
        let text: String = msgs.iter().map(|msg| format!(" {msg}")).collect();
        let answer = channel.send_all(index, &msgs)?;
        Some((format!("sender {index} try_broadcast_all{text}"), answer))
    }

    fn by_receiver(&mut self, channel: &mut Channel) -> Option<(String, Answer)> {
        let index = self.index(channel.receivers.len());
        let method = match self.random.u8(0..20) {
            0..5 => "try_recv",
            5..7 => "recv_blocking",
            7 => {
                let limit = self.random.u64(0..2);
                let answer = channel.by_receiver(index, "recv_timeout", limit)?;
                return Some((format!("receiver {index} recv_timeout {limit}"), answer));
            }
            8..14 => {
                let method = ["poll_recv", "poll_next", "poll_future"][self.random.usize(0..3)];
                let answer = channel.poll_receiver(index, method)?;
                let task = self.random.u8(0..4);
                return Some((format!("receiver {index} {method} {task}"), answer));
            }
            14 => "is_terminated",
            15 => ["clone", "new_receiver", "new_sender"][self.random.usize(0..3)],
            16 => "deactivate",
            17 => "drop",
            _ => {
                let (text, method, argument) = self.setting();
                let answer = channel.by_receiver(index, method, argument)?;
                return Some((format!("receiver {index} {method}{text}"), answer));
            }
        };
        let answer = channel.by_receiver(index, method, 0)?;
        Some((format!("receiver {index} {method}"), answer))
    }

    fn by_inactive(&mut self, channel: &mut Channel) -> Option<(String, Answer)> {
        let index = self.index(channel.inactive.len());
        let (text, method, argument) = match self.random.u8(0..6) {
            0 => (String::new(), "clone", 0),
            1 | 2 => (String::new(), "activate_cloned", 0),
            3 => (String::new(), "activate", 0),
            4 => (String::new(), "drop", 0),
            _ => self.setting(),
        };
        let answer = channel.by_inactive(index, method, argument)?;
        Some((format!("inactive {index} {method}{text}"), answer))
    }

    fn by_future(&mut self, held: &mut Held<'_>) -> Option<(String, Answer)> {
        let task = self.random.u8(0..4);
        let index = self.index(held.sends());
        match self.random.u8(0..10) {
            0..2 => {
                let msg = self.msg();
                let answer = held.ask_send(0, "begin", msg)?;
                Some((format!("send 0 begin {msg}"), answer))
            }
            2..5 => {
                let answer = held.ask_send(index, "poll", 0)?;
                Some((format!("send {index} poll {task}"), answer))
            }
            5 => {
                let answer = held.ask_send(index, "drop", 0)?;
                Some((format!("send {index} drop"), answer))
            }
            6 => Some(("recv 0 begin_boxed".to_string(), held.ask_recv("begin_boxed")?)),
            7..9 => Some((format!("recv 0 poll {task}"), held.ask_recv("poll")?)),
            _ if self.random.u8(0..8) > 0 => None,
            _ => Some(("recv 0 drop".to_string(), held.ask_recv("drop")?)),
        }
    }

    fn call(&mut self, channel: &mut Channel, held: &mut Held<'_>) -> Option<(String, Answer)> {
        match self.random.u8(0..16) {
            0..6 => self.by_sender(channel),
            6..11 => self.by_receiver(channel),
            11 => self.by_inactive(channel),
            12..15 => self.by_future(held),
            _ => Some(("handles 0 seen".to_string(), channel.seen())),
        }
    }
}

/// Makes a channel and calls on it. Returns how many lines were written.
fn play_channel(caller: &mut Caller<'_>, output: &mut Output) -> std::io::Result<usize> {
    let capacity = caller.random.usize(1..5);
    let mut channel = Channel::new(capacity);
    let mut makers = Makers::default();
    let opening = match caller.random.u8(0..3) {
        0 => "open",
        1 => {
            makers.sender = channel.senders[0].clone();
            "sends"
        }
        _ => {
            makers.receiver = channel.receivers[0].clone();
            "receives"
        }
    };
    output.open(&format!("{opening} {capacity}"))?;
    let mut held = Held::new(&mut makers);
    let most = caller.random.usize(1..200);
    let mut lines = 1;
    for _ in 0..most {
        if let Some((line, answer)) = caller.call(&mut channel, &mut held) {
            output.call(&line, &answer)?;
            lines += 1;
        }
    }
    Ok(lines)
}

fn main() -> Result<(), Box<dyn Error>> {
    let words: Vec<String> = env::args().skip(1).collect();
    let [seed, lines, script, expected] = words.as_slice() else {
        return Err("usage: beside SEED LINES SCRIPT EXPECTED".into());
    };
    let lines: usize = lines.parse()?;
    let mut output = Output {
        script: BufWriter::new(File::create(script)?),
        expected: BufWriter::new(File::create(expected)?),
    };
    let mut random = Rng::with_seed(seed.parse()?);
    let mut caller = Caller { random: &mut random, msg: 0 };
    let mut written = 0;
    while written < lines {
        written += play_channel(&mut caller, &mut output)?;
    }
    output.script.flush()?;
    output.expected.flush()?;
    Ok(())
}
