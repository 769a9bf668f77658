//! A group that runs over the words of one table.

use crate::file::{Disk, Fault, Log};
use crate::member::{Deed, Member, Scripted, Seldom};
use crate::records::{Entry, Message, Record, Value, Vote, mixed};
use crate::rows::Shape;

/// The most bytes of a log.
const LOG_LIMIT: u64 = 1 << 31;

/// The members over the words of one table, each with its log, and the letters for late ones.
pub struct Group {
    pub members: Vec<Member>,
    logs: Vec<Log>,
    table: Vec<u64>,
    posts: Posts,
    pub deeds: u64,
}

/// The letters for the members, and the memory for those that none is there for yet.
struct Posts {
    letters: Vec<Option<Vec<Entry>>>,
    spare: Vec<Vec<Entry>>,
}

impl Posts {
    fn none(shape: Shape, room: usize) -> Posts {
        let spare = (0..shape.late.count_ones()).map(|_| Vec::with_capacity(room));
        Posts {
            letters: vec![None; shape.members],
            spare: spare.collect(),
        }
    }
}

impl Group {
    /// The members have so many messages by their numbers, each of so many bytes, and take at most so
    /// many turns. By its script, member 0 suspects these, or wishes for those of them that are late.
    pub fn begin(shape: Shape, totals: &[u32], bytes: u8, turns: u32, suspected: Scripted) -> Group {
        let begin = |me| {
            let messages =
                (0..totals[me] as usize).map(|index| Message::numbered(me, index, bytes));
            let scripted = if me == 0 { suspected } else { Scripted::NOBODY };
            Member::begin(
                shape,
                me,
                messages.collect(),
                totals.to_vec(),
                turns,
                scripted,
            )
        };
        let members: Vec<Member> = (0..shape.members).map(begin).collect();
        let room = members.iter().map(|member| member.room).max();
        Group {
            logs: members.iter().map(log_of).collect(),
            members,
            table: vec![0; shape.words()],
            posts: Posts::none(shape, room.unwrap_or(0)),
            deeds: 0,
        }
    }

    /// Member `m` takes one whole turn.
    fn turn(&mut self, m: usize) {
        let member = &mut self.members[m];
        let log = &mut self.logs[m];
        loop {
            step(member, &mut self.table, log, &mut self.posts);
            self.deeds += 1;
            if member.is_between_turns() {
                return;
            }
        }
    }

    /// The same, with the looks of a row, or the pushes to a member, taken at once.
    fn turn_by_rows(&mut self, m: usize) {
        let member = &mut self.members[m];
        let log = &mut self.logs[m];
        loop {
            let row = member.take_row(&mut self.table);
            self.deeds += row.unwrap_or_else(|| {
                step(member, &mut self.table, log, &mut self.posts);
                1
            });
            if member.is_between_turns() {
                return;
            }
        }
    }

    /// The members that haven't ended, ascending.
    fn living(&self) -> Vec<usize> {
        (0..self.members.len())
            .filter(|m| self.members[*m].end.is_none())
            .collect()
    }

    /// In each round each member without an end takes one whole turn, ascending: deed by deed, or with its rows
    /// taken whole.
    pub fn run_lockstep(&mut self, by_rows: bool) {
        let mut living = self.living();
        while !living.is_empty() {
            for m in &living {
                if by_rows {
                    self.turn_by_rows(*m);
                } else {
                    self.turn(*m);
                }
            }
            living.retain(|m| self.members[*m].end.is_none());
        }
    }

    /// Before each deed a number that goes on from the seed chooses one of the members without an
    /// end, ascending.
    pub fn run_seeded(&mut self, seed: u64) {
        let mut living = self.living();
        let mut state = seed;
        while !living.is_empty() {
            state = state
                .wrapping_mul(6_364_136_223_846_793_005)
                .wrapping_add(1_442_695_040_888_963_407);
            let chosen = ((state >> 33) as u32 % living.len() as u32) as usize;
            let m = living[chosen];
            let member = &mut self.members[m];
            step(member, &mut self.table, &mut self.logs[m], &mut self.posts);
            let has_ended = member.end.is_some();
            self.deeds += 1;
            if has_ended {
                living.remove(chosen);
            }
        }
    }

    /// The most turns that a member took: in lockstep, the rounds.
    pub fn rounds(&self) -> u32 {
        self.members
            .iter()
            .map(|member| member.turns)
            .max()
            .unwrap_or(0)
    }

    /// The number of entries in all histories.
    pub fn entries(&self) -> usize {
        self.members.iter().map(|member| member.history.len()).sum()
    }

    /// A number made of how each member ended, of its history, and of the votes on its log.
    pub fn checksum(&self) -> u64 {
        self.members
            .iter()
            .zip(&self.logs)
            .fold(0, |sum, (member, log)| {
                let parts = [
                    member.history.len() as u64,
                    member.logged as u64,
                    member.durable as u64,
                    u64::from(member.turns),
                ];
                let sum = parts.into_iter().fold(sum, mixed);
                let sum = member.history.iter().fold(sum, mixed_entry);
                log.votes.iter().fold(sum, mixed_vote)
            })
    }
}

/// A log with the history that a member begins with, and with room for all that it may append.
fn log_of(member: &Member) -> Log {
    fn made(member: &Member) -> Result<Log, Fault> {
        let mut log = Log::mount(Disk::default(), LOG_LIMIT)?;
        log.reserve(member.room, member.most_votes());
        for entry in &member.history {
            log.append(&Record::Entry(entry.clone()))?;
        }
        Ok(log)
    }
    made(member).expect("a file in memory never fails")
}

/// A member takes its next deed.
#[inline(always)]
fn step(member: &mut Member, table: &mut [u64], log: &mut Log, posts: &mut Posts) {
    match member.next() {
        Deed::Look(index) => member.looked(table[index]),
        Deed::Push(index, word) => {
            table[index] = word;
            member.pushed();
        }
        Deed::Act(index, word) => {
            table[index] = word;
            member.acted();
        }
        Deed::Seldom => seldom(member, log, posts),
        Deed::Rest => {}
    }
}

/// A member gives a newcomer of its view the letter.
#[cold]
#[inline(never)]
fn give(member: &mut Member, newcomer: usize, posts: &mut Posts) {
    let mut letter = posts.spare.pop().unwrap_or_default();
    member.letter(&mut letter);
    posts.letters[newcomer] = Some(letter);
    member.given();
}

/// A late member takes its letter, if there is one.
#[cold]
#[inline(never)]
fn take(member: &mut Member, posts: &Posts) {
    member.taken(posts.letters[member.me].as_deref());
}

/// A member takes its next deed, which is a seldom one.
#[inline(never)]
fn seldom(member: &mut Member, log: &mut Log, posts: &mut Posts) {
    match member.seldom() {
        Seldom::Append => append(member, log),
        Seldom::Give(newcomer) => give(member, newcomer, posts),
        Seldom::Take => take(member, posts),
    }
}

/// A member appends its next record to its log.
fn append(member: &mut Member, log: &mut Log) {
    let record = member.record();
    log.append(&record).expect("a file in memory never fails");
    member.appended();
}

/// A View counts by its members, a message by its sender, its index, its length and its first byte.
fn mixed_entry(sum: u64, entry: &Entry) -> u64 {
    match entry {
        Entry::View { members, .. } => mixed(sum, u64::from(*members)),
        Entry::Msg {
            sender,
            index,
            bytes,
        } => {
            let bytes = bytes.bytes();
            let first = bytes.first().map_or(0, |byte| u64::from(*byte));
            let parts = [
                u64::from(*sender),
                u64::from(*index),
                bytes.len() as u64,
                first,
            ];
            parts.into_iter().fold(sum, mixed)
        }
    }
}

/// A vote counts by its ballot, its leavers and its trims.
fn mixed_vote(sum: u64, vote: &Vote) -> u64 {
    let Value { leavers, trim } = &vote.value;
    let sum = mixed(mixed(sum, u64::from(vote.ballot)), u64::from(*leavers));
    trim.iter()
        .fold(sum, |sum, count| mixed(sum, u64::from(*count)))
}
