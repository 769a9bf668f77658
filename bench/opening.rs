//! What `derecho sim --logs FOLDER` does to open an age of a script without messages, in plain Rust: each log
//! is read by one call, all are judged and compared, the votes are gone through for the views of the last age,
//! and each log gets a vote for the next age and is brought up to the longest and to View 0 of that. Logs of which
//! one would have to be cut are refused. Prints the first line of the report.

#[path = "log/records.rs"]
#[allow(dead_code)]
mod records;

use records::{Entry, MAX_RECORD, Record, Vote};
use std::env;
use std::fs::{File, OpenOptions};
use std::io::{Error, ErrorKind, Result};
use std::os::unix::fs::FileExt;
use std::path::Path;
use std::process::ExitCode;

const MAGIC: &[u8; 8] = b"DERLOG02";
const CLOSED: u8 = 0;
const OPEN: u8 = 1;
const AGE_VOTE: u8 = 4;
/// The bytes of a vote for an age: the kind, the age and its members.
const AGE_VOTE_SIZE: usize = 5;

struct Log {
    file: File,
    entries: Vec<Entry>,
    votes: Vec<Vote>,
    /// The ages that the log has a vote for.
    age_votes: Vec<u16>,
    len: u64,
}

fn refused(why: String) -> Error {
    Error::new(ErrorKind::InvalidData, why)
}

/// Reads the log of a member. There is one already.
fn mount(folder: &Path, member: usize) -> Result<Log> {
    let file = OpenOptions::new().read(true).write(true).open(folder.join(format!("member-{member}.log")))?;
    file.sync_all()?;
    let mut bytes = vec![0; file.metadata()?.len() as usize];
    file.read_exact_at(&mut bytes, 0)?;
    let mut entries = Vec::new();
    let mut votes = Vec::new();
    let mut age_votes = Vec::new();
    let mut at = MAGIC.len();
    if !bytes.starts_with(MAGIC) {
        return Err(refused(format!("damaged log of member {member} at 0")));
    }
    while bytes.get(at) == Some(&OPEN) {
        if let Some(&[AGE_VOTE, high, low, _, _]) = bytes.get(at + 1..at + 1 + AGE_VOTE_SIZE) {
            age_votes.push(u16::from_be_bytes([high, low]));
            at += 1 + AGE_VOTE_SIZE;
            continue;
        }
        let Some((record, count)) = Record::decode(&bytes[at + 1..]) else {
            return Err(refused(format!("damaged log of member {member} at {at}")));
        };
        match record {
            Record::Entry(entry) => entries.push(entry),
            Record::Vote(vote) => votes.push(vote),
        }
        at += 1 + count;
    }
    if at >= bytes.len() {
        return Err(refused(format!("damaged log of member {member} at {at}")));
    }
    Ok(Log {
        file,
        entries,
        votes,
        age_votes,
        len: at as u64 + 1,
    })
}

/// The place of the first entry that may not stand, in a group of this roster that sends nothing.
fn first_foreign(roster: u16, entries: &[Entry]) -> Option<usize> {
    let mut last: Option<(u16, u8, u16)> = None;
    for (place, entry) in entries.iter().enumerate() {
        let &Entry::View { age, number, members } = entry else {
            return Some(place);
        };
        let opens = number == 0 && last.is_none_or(|(before, _, _)| age > before);
        let follows = last.is_some_and(|(of, before, all)| {
            age == of && u16::from(number) == u16::from(before) + 1 && members != all
        });
        if members & !roster != 0 || !opens && !follows {
            return Some(place);
        }
        last = Some((age, number, members));
    }
    None
}

/// The members of the views of an age, as the votes name them, behind View 0 with these members.
fn path(logs: &[Log], age: u16, first: u16) -> Vec<u16> {
    let mut views = vec![first];
    while views.len() <= 255 {
        let members = views[views.len() - 1];
        let named = |vote: &&Vote| {
            vote.age == age
                && usize::from(vote.view) == views.len() - 1
                && usize::from(vote.members) == logs.len()
                && vote.value.leavers != 0
                && members & !vote.value.leavers != 0
        };
        let of_view = logs.iter().enumerate().filter(|(member, _)| members >> member & 1 == 1);
        let best = of_view.flat_map(|(_, log)| log.votes.iter().filter(named)).min_by_key(|vote| !vote.ballot);
        match best {
            Some(vote) => views.push(members & !vote.value.leavers),
            None => break,
        }
    }
    views
}

/// The age behind all those that the logs know.
fn next_age(logs: &[Log]) -> u16 {
    let views = logs.iter().flat_map(|log| &log.entries).filter_map(|entry| match entry {
        Entry::View { age, .. } => Some(*age),
        Entry::Msg { .. } => None,
    });
    let votes = logs.iter().flat_map(|log| log.votes.iter().map(|vote| vote.age));
    let age_votes = logs.iter().flat_map(|log| log.age_votes.iter().copied());
    views.chain(votes).chain(age_votes).max().map_or(0, |age| age + 1)
}

/// Appends a record, whose bytes these are.
fn append(log: &mut Log, record: &[u8]) -> Result<()> {
    let mut bytes = [0; MAX_RECORD + 1];
    bytes[..record.len()].copy_from_slice(record);
    bytes[record.len()] = CLOSED;
    log.file.write_all_at(&bytes[..=record.len()], log.len)?;
    log.file.sync_all()?;
    log.file.write_all_at(&[OPEN], log.len - 1)?;
    log.file.sync_all()?;
    log.len += record.len() as u64 + 1;
    Ok(())
}

fn append_entry(log: &mut Log, entry: Entry) -> Result<()> {
    let mut bytes = [0; MAX_RECORD];
    let record = Record::Entry(entry);
    let count = record.encode(&mut bytes);
    append(log, &bytes[..count])?;
    if let Record::Entry(entry) = record {
        log.entries.push(entry);
    }
    Ok(())
}

fn vote_for(log: &mut Log, age: u16, members: u16) -> Result<()> {
    let [high, low] = age.to_be_bytes();
    let [more, less] = members.to_be_bytes();
    append(log, &[AGE_VOTE, high, low, more, less])?;
    log.age_votes.push(age);
    Ok(())
}

/// Refuses logs of which too few are there of a view of the last age.
fn check_path(logs: &[Log], start: &[Entry], roster: u16) -> Result<()> {
    let Some(&Entry::View { age, .. }) = start.last() else {
        return Ok(());
    };
    let first = start.iter().find_map(|entry| match entry {
        Entry::View { age: of, number: 0, members } if *of == age => Some(*members),
        _ => None,
    });
    for (view, all) in path(logs, age, first.expect("each age has a View 0")).into_iter().enumerate() {
        let have = (all & roster).count_ones();
        if 2 * have <= all.count_ones() {
            return Err(refused(format!("quorum of view {view} has {have}")));
        }
    }
    Ok(())
}

/// Opens the next age over these logs, and answers its number and the length of its start.
fn open(folder: &Path, members: usize) -> Result<(u16, usize)> {
    let roster = ((1u32 << members) - 1) as u16;
    let mut logs = (0..members).map(|member| mount(folder, member)).collect::<Result<Vec<Log>>>()?;
    for (member, log) in logs.iter().enumerate() {
        if let Some(place) = first_foreign(roster, &log.entries) {
            return Err(refused(format!("foreign log of member {member} at entry {place}")));
        }
    }
    let start = logs.iter().max_by_key(|log| log.entries.len()).expect("some member").entries.clone();
    if let Some(member) = logs.iter().position(|log| !start.starts_with(&log.entries)) {
        return Err(refused(format!("the log of member {member} is no front of the longest")));
    }
    check_path(&logs, &start, roster)?;
    let age = next_age(&logs);
    for log in &mut logs {
        vote_for(log, age, roster)?;
    }
    for log in &mut logs {
        for entry in &start[log.entries.len()..] {
            append_entry(log, entry.clone())?;
        }
        append_entry(log, Entry::View { age, number: 0, members: roster })?;
    }
    Ok((age, start.len()))
}

fn main() -> ExitCode {
    let words: Vec<String> = env::args().skip(1).collect();
    let [folder, members] = words.as_slice() else {
        println!("usage: opening FOLDER MEMBERS");
        return ExitCode::from(2);
    };
    let members = members.parse().expect("a number of members");
    match open(Path::new(folder), members) {
        Ok((age, start)) => println!("age {age} start {start}"),
        Err(why) => {
            println!("refused: {why}");
            return ExitCode::FAILURE;
        }
    }
    ExitCode::SUCCESS
}
