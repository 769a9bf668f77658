//! Apps that push messages while members deliver them, in plain Rust, to measure live groups by: a thread for
//! each app and each member, with channels between them. One sequencer brings the messages of all apps into
//! an order, and sends each to all members, which log it.

#[path = "log/file.rs"]
#[allow(dead_code)]
mod file;
#[path = "log/records.rs"]
#[allow(dead_code)]
mod records;
#[path = "members/rows.rs"]
#[allow(dead_code)]
mod rows;
#[path = "threads/tally.rs"]
#[allow(dead_code)]
mod tally;

use records::{Entry, MAX_MESSAGE, Message, Record};
use std::env;
use std::process::ExitCode;
use std::sync::mpsc::{Receiver, Sender, channel};
use std::thread;
use tally::{append, log_with};

/// What the program was told to do.
struct Task {
    members: usize,
    /// The messages of each app.
    messages: u32,
    bytes: u8,
}

/// The number in a word, where it is at most so large.
fn number(word: &str, most: usize) -> Option<usize> {
    word.parse().ok().filter(|number| *number <= most)
}

fn read_task(words: &[String]) -> Option<Task> {
    let [members, messages, bytes] = words else {
        return None;
    };
    Some(Task {
        members: number(members, 16).filter(|members| *members > 0)?,
        messages: number(messages, 4096)? as u32,
        bytes: number(bytes, MAX_MESSAGE)? as u8,
    })
}

/// Pushes all messages of an app.
fn push(me: usize, task: &Task, sequencer: &Sender<Entry>) {
    for index in 0..task.messages {
        let entry = Entry::Msg {
            sender: me as u8,
            index,
            bytes: Message::numbered(me, index as usize, task.bytes),
        };
        sequencer.send(entry).expect("the sequencer outlives apps");
    }
}

/// Sends each message to all members, in the order in which they come.
fn sequence(inbox: &Receiver<Entry>, outboxes: &[Sender<Entry>]) {
    for entry in inbox {
        for outbox in outboxes {
            outbox
                .send(entry.clone())
                .expect("members outlive the sequencer");
        }
    }
}

/// Delivers and logs all messages, and answers the history.
fn deliver(task: &Task, inbox: &Receiver<Entry>) -> Vec<Entry> {
    let total = task.members * task.messages as usize;
    let mut history = Vec::with_capacity(1 + total);
    history.push(Entry::View {
        age: 0,
        number: 0,
        members: u16::MAX >> (16 - task.members),
    });
    let mut log = log_with(&history, 1 + total);
    for entry in inbox {
        history.push(entry.clone());
        append(&mut log, &Record::Entry(entry));
    }
    assert!(log.entries.len() == history.len());
    history
}

/// Runs all threads, and answers the history of each member.
fn run(task: &Task) -> Vec<Vec<Entry>> {
    let (sequencer, inbox) = channel();
    let (outboxes, inboxes): (Vec<_>, Vec<_>) = (0..task.members).map(|_| channel()).unzip();
    thread::scope(|scope| {
        for me in 0..task.members {
            let sequencer = sequencer.clone();
            scope.spawn(move || push(me, task, &sequencer));
        }
        drop(sequencer);
        scope.spawn(move || sequence(&inbox, &outboxes));
        let members: Vec<_> = inboxes
            .into_iter()
            .map(|inbox| scope.spawn(move || deliver(task, &inbox)))
            .collect();
        let joined = members
            .into_iter()
            .map(|member| member.join().expect("no member panics"));
        joined.collect()
    })
}

fn main() -> ExitCode {
    let words: Vec<String> = env::args().skip(1).collect();
    let Some(task) = read_task(&words) else {
        println!("usage: live MEMBERS MESSAGES SIZE");
        return ExitCode::from(2);
    };
    let histories = run(&task);
    for me in 0..task.members {
        let is_own =
            |entry: &&Entry| matches!(entry, Entry::Msg { sender, .. } if usize::from(*sender) == me);
        let delivered = histories.iter().map(|history| history.iter().filter(is_own).count());
        let delivered = delivered.min().unwrap_or(0);
        println!("member {me} pushed {} delivered {delivered}", task.messages);
    }
    println!("ok");
    ExitCode::SUCCESS
}
