//! The program `peers`: times calls of async-broadcast 0.7.2 and of its peers.
//!
//! `peers CHANNEL time` prints, for each row of that channel, the nanoseconds of one operation, and
//! `peers CHANNEL time TITLE` for the row of that title alone. `peers CHANNEL repeat N TITLE` repeats
//! that row N times, so that another program may count its instructions. `peers CHANNEL threads S R M`
//! sends from threads to threads, and `peers CHANNEL room S R M` so that no sender waits. `peers
//! CHANNEL titles` prints the titles. With no word after it each row that is not large is repeated
//! three times, and its checksum printed, which is the same in every run.
//!
//! CHANNEL is `original`, `tokio`, `crossbeam` or, with the feature of that name, `unlocked`.

mod capacity;
mod channel;
mod clock;
mod crossbeam;
mod lists;
mod loops;
mod message;
mod original;
mod overflow;
mod polls;
mod readers;
mod rows;
mod sends;
mod streams;
mod threads;
mod titles;
mod tokio;
#[cfg(feature = "unlocked")]
mod unlocked;
mod waiting;
mod waker;

use rows::Row;
use std::process::exit;

/// How often a row is repeated for its checksum.
const REPETITIONS: u64 = 3;

/// The most operations of a repetition that is run for its checksum.
const LARGEST: u64 = 2000;

fn main() {
    let words: Vec<String> = std::env::args().skip(1).collect();
    let words: Vec<&str> = words.iter().map(String::as_str).collect();
    let [channel, rest @ ..] = words.as_slice() else {
        usage()
    };
    if let [kind @ ("threads" | "room"), sizes @ ..] = rest {
        return threads_of(channel, sizes, *kind == "room");
    }
    let rows = rows::of(channel).unwrap_or_else(|| usage());
    match rest {
        [] => rows
            .iter()
            .filter(|row| row.operations <= LARGEST)
            .for_each(|row| print_sum(row, REPETITIONS)),
        ["titles"] => rows.iter().for_each(|row| println!("{}", row.title)),
        ["time"] => rows.iter().for_each(clock::print_time),
        ["time", title] => named(&rows, title).for_each(clock::print_time),
        ["repeat", times, title] => {
            let times = times.parse().unwrap_or_else(|_| usage());
            named(&rows, title).for_each(|row| print_sum(row, times));
        }
        _ => usage(),
    }
}

fn named<'a>(rows: &'a [Row], title: &'a str) -> impl Iterator<Item = &'a Row> {
    rows.iter().filter(move |row| row.title == title)
}

fn print_sum(row: &Row, times: u64) {
    println!("{}: {}", row.title, (row.run)(times));
}

fn threads_of(channel: &str, sizes: &[&str], has_room: bool) {
    let sizes: Option<Vec<u64>> = sizes.iter().map(|word| word.parse().ok()).collect();
    match sizes.as_deref() {
        Some(&[senders, receivers, messages]) if senders > 0 && receivers > 0 => {
            let sizes = threads::Sizes {
                senders,
                receivers,
                messages,
                has_room,
            };
            let line = threads::line(channel, sizes);
            println!("{}", line.unwrap_or_else(|| usage()));
        }
        _ => usage(),
    }
}

fn usage() -> ! {
    eprintln!("usage: peers CHANNEL [titles | time [TITLE] | repeat N TITLE | threads S R M | room S R M]");
    eprintln!("CHANNEL: original, tokio, crossbeam, or unlocked if it was built with that");
    exit(2)
}
