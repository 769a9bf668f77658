//! A log over a `Vec<u8>`: the bytes that `dr_log` defines, and its tests of what is read.

use crate::records::{Entry, MAX_RECORD, Record, Vote};
use std::hint::black_box;

const MAGIC: &[u8; 8] = b"DERLOG02";
const CLOSED: u8 = 0;
const OPEN: u8 = 1;
/// The length of a log without a record. A file that is no longer is taken for a new log.
const EMPTY: u64 = 9;

/// Why bytes are no log, or a call failed.
#[derive(Debug)]
#[allow(dead_code)]
pub enum Fault {
    Disk,
    Damaged { at: u64 },
    Full { len: u64 },
}

/// A file of bytes in memory.
#[derive(Default)]
pub struct Disk {
    bytes: Vec<u8>,
}

impl Disk {
    fn read_at(&self, at: u64, into: &mut [u8]) -> Result<usize, Fault> {
        let from = self.bytes.get(at as usize..).ok_or(Fault::Disk)?;
        let count = from.len().min(into.len());
        into[..count].copy_from_slice(&from[..count]);
        Ok(count)
    }

    fn write_at(&mut self, at: u64, from: &[u8]) -> Result<(), Fault> {
        let at = at as usize;
        let over = self.bytes.get_mut(at..).ok_or(Fault::Disk)?;
        let count = over.len().min(from.len());
        over[..count].copy_from_slice(&from[..count]);
        self.bytes.extend_from_slice(&from[count..]);
        Ok(())
    }

    fn cut(&mut self, to: u64) -> Result<(), Fault> {
        self.bytes.truncate(to as usize);
        Ok(())
    }

    fn sync(&mut self) -> Result<(), Fault> {
        black_box(&mut self.bytes);
        Ok(())
    }
}

/// A log on such a file.
pub struct Log {
    pub disk: Disk,
    pub entries: Vec<Entry>,
    pub votes: Vec<Vote>,
    len: u64,
    limit: u64,
}

impl Log {
    pub fn mount(mut disk: Disk, limit: u64) -> Result<Log, Fault> {
        disk.sync()?;
        let len = disk.bytes.len() as u64;
        if len <= EMPTY {
            disk.cut(0)?;
            disk.write_at(0, MAGIC)?;
            disk.sync()?;
            disk.write_at(8, &[CLOSED])?;
            disk.sync()?;
            return Ok(Log {
                disk,
                entries: Vec::new(),
                votes: Vec::new(),
                len: EMPTY,
                limit,
            });
        }
        let mut bytes = vec![0; len as usize];
        let count = disk.read_at(0, &mut bytes)?;
        bytes.truncate(count);
        Log::parse(disk, &bytes, limit)
    }

    fn parse(disk: Disk, bytes: &[u8], limit: u64) -> Result<Log, Fault> {
        if !bytes.starts_with(MAGIC) {
            return Err(Fault::Damaged { at: 0 });
        }
        let mut entries = Vec::new();
        let mut votes = Vec::new();
        let mut at = MAGIC.len();
        while bytes.get(at) == Some(&OPEN) {
            let Some((record, count)) = Record::decode(&bytes[at + 1..]) else {
                return Err(Fault::Damaged { at: at as u64 });
            };
            match record {
                Record::Entry(entry) => entries.push(entry),
                Record::Vote(vote) => votes.push(vote),
            }
            at += 1 + count;
        }
        if at >= bytes.len() {
            return Err(Fault::Damaged { at: at as u64 });
        }
        Ok(Log {
            disk,
            entries,
            votes,
            len: at as u64 + 1,
            limit,
        })
    }

    pub fn reserve(&mut self, entries: usize, votes: usize) {
        self.entries.reserve(entries);
        self.votes.reserve(votes);
        self.disk.bytes.reserve(74 * (entries + votes));
    }

    pub fn append(&mut self, record: &Record) -> Result<(), Fault> {
        let mut bytes = [0; MAX_RECORD + 1];
        let count = record.encode(&mut bytes);
        let size = count as u64 + 1;
        if size > self.limit.saturating_sub(self.len) {
            return Err(Fault::Full { len: self.len });
        }
        bytes[count] = CLOSED;
        self.disk.write_at(self.len, &bytes[..=count])?;
        self.disk.sync()?;
        self.disk.write_at(self.len - 1, &[OPEN])?;
        self.disk.sync()?;
        match record {
            Record::Entry(entry) => self.entries.push(entry.clone()),
            Record::Vote(vote) => self.votes.push(*vote),
        }
        self.len += size;
        Ok(())
    }

    /// A number made of the length and all entries.
    pub fn checksum(&self) -> u64 {
        self.entries.iter().fold(self.len, Entry::mixed)
    }
}
