//! The program `memory`: the bytes that async-broadcast 0.7.2 and its peers take.
//!
//! `memory CHANNEL` prints `TITLE: BYTES`, a line each. What stands where its owner keeps it, a handle
//! or a future, is counted only in the rows that say so. CHANNEL is `original`, `tokio` or `crossbeam`.

mod counted;
mod crossbeam;
mod original;
mod tokio;

use counted::Counted;
use std::process::exit;

#[global_allocator]
static COUNTED: Counted = Counted;

/// How many messages are queued: a power of two, to which tokio would round it.
pub const QUEUED: usize = 1 << 20;

/// How many receivers there are, and how many wait.
pub const MANY: [usize; 2] = [1_000, 100_000];

/// How many receive the queued messages, where there are many.
pub const READERS: usize = 64;

/// How many messages are queued for them.
pub const QUEUED_FOR_READERS: usize = 1 << 14;

pub type Rows = Vec<(String, f64)>;

fn main() {
    let words: Vec<String> = std::env::args().skip(1).collect();
    let rows = match words.iter().map(String::as_str).collect::<Vec<_>>()[..] {
        ["original"] => original::rows(),
        ["tokio"] => tokio::rows(),
        ["crossbeam"] => crossbeam::rows(),
        _ => {
            eprintln!("usage: memory original | tokio | crossbeam");
            exit(2)
        }
    };
    for (title, bytes) in rows {
        println!("{title}: {bytes:.1}");
    }
}

/// The titles of the rows that all channels have.
pub mod titles {
    pub fn idle() -> String {
        "an idle channel of capacity 1 with its two handles".to_string()
    }
    pub fn message() -> String {
        format!("a queued message, at {}", super::QUEUED)
    }
    pub fn message_of_many() -> String {
        format!("a queued message for {} receivers", super::READERS)
    }
    pub fn receiver(count: usize) -> String {
        format!("a receiver, at {count}")
    }
    pub fn handle(name: &str) -> String {
        format!("where its owner keeps it: a {name}")
    }
}
