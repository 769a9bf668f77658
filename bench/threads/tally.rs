//! How members ended.

use crate::file::{Disk, Log};
use crate::records::{Entry, Record, mixed};

/// The most bytes of a log.
const LOG_LIMIT: u64 = 1 << 31;

/// How a member ended.
pub struct Ended {
    pub is_done: bool,
    pub history: Vec<Entry>,
    pub logged: usize,
    pub durable: usize,
}

impl Ended {
    /// A number made of what was logged, and of all entries, in whatever order they are. A View counts by
    /// its members, a message by its sender, its index, its length and its first byte.
    pub fn checksum(&self) -> u64 {
        let sum = mixed(self.logged as u64, self.durable as u64);
        let numbers = self.history.iter().map(number_of);
        numbers.fold(sum, u64::wrapping_add)
    }
}

fn number_of(entry: &Entry) -> u64 {
    match entry {
        Entry::View { members, .. } => u64::from(*members),
        Entry::Msg {
            sender,
            index,
            bytes,
        } => {
            let bytes = bytes.bytes();
            let first = bytes.first().map_or(0, |byte| u64::from(*byte));
            let parts = [
                u64::from(*sender),
                u64::from(*index),
                bytes.len() as u64,
                first,
            ];
            parts.into_iter().fold(0, mixed)
        }
    }
}

/// A log with the history that a member begins with, and with room for so many entries.
pub fn log_with(history: &[Entry], room: usize) -> Log {
    let mut log = Log::mount(Disk::default(), LOG_LIMIT).expect("a file in memory never fails");
    log.reserve(room, 0);
    for entry in history {
        append(&mut log, &Record::Entry(entry.clone()));
    }
    log
}

/// Appends a record to a log in memory.
pub fn append(log: &mut Log, record: &Record) {
    log.append(record).expect("a file in memory never fails");
}
