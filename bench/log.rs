//! The appends and mounts of `dr_bench` in plain Rust, over a `Vec<u8>`: the same bytes, the same
//! tests of what is read, the same line at the end.

#[path = "log/file.rs"]
mod file;
#[path = "log/records.rs"]
mod records;

use file::{Disk, Fault, Log};
use records::{Entry, MAX_MESSAGE, Record};
use std::env;
use std::process::ExitCode;

/// No log comes to this length.
const LIMIT: u64 = u64::MAX;

fn log_of(records: u32) -> Result<Log, Fault> {
    let mut log = Log::mount(Disk::default(), LIMIT)?;
    log.reserve(records as usize, 0);
    let record = message();
    for _ in 0..records {
        log.append(&record)?;
    }
    Ok(log)
}

/// The record of a message of 64 bytes.
#[inline(never)]
fn message() -> Record {
    let bytes: &[u8; MAX_MESSAGE] = b"abcdefghijklmnopqrstuvwxyzabcdefghijklmnopqrstuvwxyzabcdefghijkl";
    Record::Entry(Entry::msg(0, 0, bytes))
}

/// What was done: how many records, and a number made of those that a log has at the end.
struct Tally {
    count: u64,
    checksum: u64,
}

#[inline(never)]
fn appends(records: u32, rounds: u32) -> Result<Tally, Fault> {
    let mut count = 0;
    let mut disk = Disk::default();
    for _ in 0..rounds {
        let log = log_of(records)?;
        count += log.entries.len() as u64;
        disk = log.disk;
    }
    let checksum = Log::mount(disk, LIMIT)?.checksum();
    Ok(Tally { count, checksum })
}

#[inline(never)]
fn mounts(records: u32, rounds: u32) -> Result<Tally, Fault> {
    let mut count = 0;
    let mut log = log_of(records)?;
    for _ in 0..rounds {
        log = Log::mount(log.disk, LIMIT)?;
        count += log.entries.len() as u64;
    }
    let checksum = log.checksum();
    Ok(Tally { count, checksum })
}

fn main() -> ExitCode {
    let words: Vec<String> = env::args().skip(1).collect();
    let numbers: Vec<u32> = words.iter().skip(1).filter_map(|word| word.parse().ok()).collect();
    let (Some(work), &[records, rounds]) = (words.first(), numbers.as_slice()) else {
        return usage();
    };
    let tally = match work.as_str() {
        "append" => appends(records, rounds),
        "mount" => mounts(records, rounds),
        _ => return usage(),
    };
    let tally = tally.expect("a file in memory never fails");
    println!("{work}: {} checksum: {:016x}", tally.count, tally.checksum);
    ExitCode::SUCCESS
}

fn usage() -> ExitCode {
    println!("usage: log append|mount RECORDS ROUNDS");
    ExitCode::from(2)
}
