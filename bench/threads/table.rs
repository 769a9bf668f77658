//! One thread for each member, over one table of atomic words.

use crate::file::Log;
use crate::member::{Deed, End, Member, Scripted};
use crate::records::Message;
use crate::rows::Shape;
use crate::tally::{Ended, append, log_with};
use std::hint;
use std::sync::atomic::{AtomicU64, Ordering};
use std::thread;
use std::time::Instant;

/// The most turns that a member may take.
const TURNS: u32 = 1_000_000;
/// How often a pace spins, and how often one that yields does so then.
const SPINS: u32 = 127;
const YIELDS: u32 = 4;

/// What a thread does after each turn.
#[derive(Clone, Copy)]
pub enum Pace {
    /// It goes on at once.
    Free,
    Spin,
    /// It spins as long, and then yields its processor.
    Yield,
}

impl Pace {
    fn turn(self) {
        let (spins, yields) = match self {
            Pace::Free => (0, 0),
            Pace::Spin => (SPINS, 0),
            Pace::Yield => (SPINS, YIELDS),
        };
        (0..spins).for_each(|_| hint::spin_loop());
        (0..yields).for_each(|_| thread::yield_now());
    }
}

/// What threads have done, and how long they took for it.
#[derive(Default)]
pub struct Spent {
    pub turns: u64,
    pub looks: u64,
    /// The looks that saw another word than the last time.
    pub changed: u64,
    pub pushes: u64,
    pub acts: u64,
    pub appends: u64,
    pub look_nanos: u64,
    pub push_nanos: u64,
    /// Of acts and appends.
    pub act_nanos: u64,
    pub pace_nanos: u64,
}

impl Spent {
    fn add(mut self, other: Spent) -> Spent {
        self.turns += other.turns;
        self.looks += other.looks;
        self.changed += other.changed;
        self.pushes += other.pushes;
        self.acts += other.acts;
        self.appends += other.appends;
        self.look_nanos += other.look_nanos;
        self.push_nanos += other.push_nanos;
        self.act_nanos += other.act_nanos;
        self.pace_nanos += other.pace_nanos;
        self
    }
}

/// How words are stored: each store in one order with all others, or so that whoever sees it sees what
/// came before it.
const fn order(sequential: bool) -> Ordering {
    if sequential {
        Ordering::SeqCst
    } else {
        Ordering::Release
    }
}

/// Runs a group, each member in a thread with its log, until all members have ended. Where `TIMED`, it
/// counts what they do.
pub fn run<const TIMED: bool, const SEQUENTIAL: bool>(
    shape: Shape,
    messages: u32,
    bytes: u8,
    pace: Pace,
) -> (Vec<Ended>, Spent) {
    let table: Vec<AtomicU64> = (0..shape.words()).map(|_| AtomicU64::new(0)).collect();
    let table = table.as_slice();
    let members: Vec<Member> = (0..shape.members)
        .map(|me| {
            let own = (0..messages as usize).map(|index| Message::numbered(me, index, bytes));
            Member::begin(
                shape,
                me,
                own.collect(),
                vec![messages; shape.members],
                TURNS,
                Scripted::NOBODY,
            )
        })
        .collect();
    thread::scope(|scope| {
        let threads: Vec<_> = members
            .into_iter()
            .map(|member| scope.spawn(move || run_member::<TIMED, SEQUENTIAL>(member, table, pace)))
            .collect();
        let mut all = Spent::default();
        let mut ended = Vec::with_capacity(threads.len());
        for thread in threads {
            let (member, spent) = thread.join().expect("no member panics");
            all = all.add(spent);
            ended.push(member);
        }
        (ended, all)
    })
}

/// Runs one member to its end.
fn run_member<const TIMED: bool, const SEQUENTIAL: bool>(
    mut member: Member,
    table: &[AtomicU64],
    pace: Pace,
) -> (Ended, Spent) {
    let mut log = log_with(&member.history, member.room);
    let mut spent = Spent::default();
    while member.end.is_none() {
        if TIMED {
            timed_turn::<SEQUENTIAL>(&mut member, table, &mut log, pace, &mut spent);
        } else {
            turn::<SEQUENTIAL>(&mut member, table, &mut log);
            pace.turn();
        }
    }
    let ended = Ended {
        is_done: matches!(member.end, Some(End::Done)),
        history: member.history,
        logged: member.logged,
        durable: member.durable,
    };
    (ended, spent)
}

/// A member takes one whole turn.
fn turn<const SEQUENTIAL: bool>(member: &mut Member, table: &[AtomicU64], log: &mut Log) {
    loop {
        match member.next() {
            Deed::Look(_) => {
                member.look_rows(table);
            }
            Deed::Push(..) => {
                member.push_rows(table, order(SEQUENTIAL));
            }
            Deed::Act(index, word) => {
                table[index].store(word, order(SEQUENTIAL));
                member.acted();
            }
            Deed::Seldom => {
                append(log, &member.record());
                member.appended();
            }
            Deed::Rest => {}
        }
        if member.is_between_turns() {
            return;
        }
    }
}

/// The same, and what comes after it, with the deeds counted and their times.
fn timed_turn<const SEQUENTIAL: bool>(
    member: &mut Member,
    table: &[AtomicU64],
    log: &mut Log,
    pace: Pace,
    spent: &mut Spent,
) {
    spent.turns += 1;
    let mut last = Instant::now();
    let mut since = || {
        let now = Instant::now();
        let nanos = (now - last).as_nanos() as u64;
        last = now;
        nanos
    };
    loop {
        match member.next() {
            Deed::Look(_) => {
                spent.act_nanos += since();
                let (looks, changed) = member.look_rows_counted(table);
                spent.look_nanos += since();
                spent.looks += looks;
                spent.changed += changed;
            }
            Deed::Push(..) => {
                spent.act_nanos += since();
                spent.pushes += member.push_rows(table, order(SEQUENTIAL));
                spent.push_nanos += since();
            }
            Deed::Act(index, word) => {
                table[index].store(word, order(SEQUENTIAL));
                member.acted();
                spent.acts += 1;
            }
            Deed::Seldom => {
                append(log, &member.record());
                member.appended();
                spent.appends += 1;
            }
            Deed::Rest => {}
        }
        if member.is_between_turns() {
            spent.act_nanos += since();
            pace.turn();
            spent.pace_nanos += since();
            return;
        }
    }
}
