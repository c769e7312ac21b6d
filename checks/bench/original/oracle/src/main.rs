//! The program `oracle`: async-broadcast 0.7.2 behind the lines that `bcast script` reads
//! (docs/SCRIPTS.md), so that what the two programs print can be compared.
//!
//! `oracle script` reads lines, and prints the answer to each. It ends as `bcast` does: with status 2
//! at a line that is no call, 3 where memory is refused, 4 where input or output fails.

mod calls;
mod channel;
mod words;

use calls::Said;
use channel::Channel;
use std::io::{self, BufWriter, Read, Write};
use std::process::exit;

/// The most bytes of a line.
const LONGEST: usize = 200;

/// Why a script stops before its end.
enum Stop {
    NoCall { line: usize },
    NoMemory,
    NoInput,
    NoOutput,
}

impl Stop {
    /// The words for it, and the status.
    fn said(&self) -> (String, i32) {
        match self {
            Stop::NoCall { line } => (format!("line {line}: not a call"), 2),
            Stop::NoMemory => ("out of memory".to_string(), 3),
            Stop::NoInput => ("input failed".to_string(), 4),
            Stop::NoOutput => ("output failed".to_string(), 4),
        }
    }
}

fn main() {
    let words: Vec<String> = std::env::args().skip(1).collect();
    if words != ["script"] {
        eprintln!("usage: oracle script");
        exit(2);
    }
    if let Err(stop) = script() {
        let (words, status) = stop.said();
        eprintln!("{words}");
        exit(status);
    }
}

fn script() -> Result<(), Stop> {
    let mut input = Vec::new();
    io::stdin()
        .lock()
        .read_to_end(&mut input)
        .map_err(|_| Stop::NoInput)?;
    let mut out = BufWriter::new(io::stdout().lock());
    let answered = answer_all(&input, &mut out);
    out.flush().map_err(|_| Stop::NoOutput)?;
    answered
}

/// Answers each line until one stops the script.
fn answer_all(input: &[u8], out: &mut impl Write) -> Result<(), Stop> {
    let mut lines: Vec<&[u8]> = input.split(|byte| *byte == b'\n').collect();
    if lines.last() == Some(&&b""[..]) {
        lines.pop();
    }
    if lines.is_empty() {
        return Err(Stop::NoCall { line: 1 });
    }
    let mut channel = None;
    for (at, line) in lines.into_iter().enumerate() {
        match answer(&mut channel, line) {
            Said::Text(text) => writeln!(out, "{text}").map_err(|_| Stop::NoOutput)?,
            Said::NoCall => return Err(Stop::NoCall { line: at + 1 }),
            Said::NoMemory => return Err(Stop::NoMemory),
        }
    }
    Ok(())
}

/// The answer to a line. The first one makes the channel.
fn answer(channel: &mut Option<Channel>, line: &[u8]) -> Said {
    if line.len() > LONGEST {
        return Said::NoCall;
    }
    match channel {
        Some(channel) => calls::answer(channel, line),
        None => match words::capacity(line) {
            None => Said::NoCall,
            Some(capacity) if !channel::is_room(capacity) => Said::NoMemory,
            Some(capacity) => {
                *channel = Some(Channel::new(capacity));
                Said::Text("ok".to_string())
            }
        },
    }
}
