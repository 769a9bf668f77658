//! The report of a large age in plain Rust, made in the way of `dr_text`: the lines of the longest
//! history once, and then written for each member as far as its own entries are the same.

#[path = "log/records.rs"]
#[allow(dead_code)]
mod records;
#[path = "report/text.rs"]
mod text;

use records::{Entry, MAX_MESSAGE};
use std::env;
use std::hint::black_box;
use std::io::{self, Write};
use std::process::ExitCode;
use text::{Member, report};

const MEMBERS: u8 = 16;

/// The most messages that a member may have.
const MOST_MESSAGES: u32 = 4096;

/// Message `index` of a member: letters that follow one another.
fn message(sender: u8, index: u32) -> Vec<u8> {
    let first = 31 * u32::from(sender) + 7 * index;
    (0..MAX_MESSAGE as u32)
        .map(|place| b'a' + ((first + place) % 26) as u8)
        .collect()
}

/// A member that delivered so many messages of each, and has all of them on its disk.
fn member(messages: u32) -> Member {
    let mut history = vec![Entry::View {
        age: 0,
        number: 0,
        members: u16::MAX,
    }];
    for index in 0..messages {
        for sender in 0..MEMBERS {
            history.push(Entry::msg(sender, index, &message(sender, index)));
        }
    }
    Member { history }
}

/// Counts the bytes that are written, and keeps none.
struct Counter {
    bytes: usize,
}

impl Write for Counter {
    fn write(&mut self, from: &[u8]) -> io::Result<usize> {
        self.bytes += black_box(from).len();
        Ok(from.len())
    }

    fn flush(&mut self) -> io::Result<()> {
        Ok(())
    }
}

fn main() -> io::Result<ExitCode> {
    let words: Vec<String> = env::args().skip(1).collect();
    let numbers: Vec<u32> = words.iter().filter_map(|word| word.parse().ok()).collect();
    let &[messages, rounds] = numbers.as_slice() else {
        println!("usage: report MESSAGES ROUNDS");
        return Ok(ExitCode::from(2));
    };
    let messages = messages.min(MOST_MESSAGES);
    let members: Vec<Member> = (0..MEMBERS).map(|_| member(messages)).collect();
    let mut counter = Counter { bytes: 0 };
    for _ in 0..rounds.max(1) {
        report(&members, &mut counter)?;
    }
    report(&members, &mut io::stdout())?;
    println!("bytes: {}", counter.bytes);
    Ok(ExitCode::SUCCESS)
}
