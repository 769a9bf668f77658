//! Members that send their messages to one sequencer, which sends each of them to all.

use crate::WINDOW;
use crate::records::{Entry, Message, Record};
use crate::rows::Shape;
use crate::tally::{Ended, append, log_with};
use std::sync::mpsc::{Receiver, Sender, channel};
use std::thread;

/// What a member tells the sequencer.
enum Parcel {
    Message(Entry),
    /// It has logged all messages of all members.
    Logged,
}

/// Runs a group, each member in a thread with its log, and the sequencer in one more.
pub fn run(shape: Shape, messages: u32, bytes: u8) -> Vec<Ended> {
    let (sender, inbox) = channel();
    let (outboxes, inboxes): (Vec<_>, Vec<_>) = (0..shape.members).map(|_| channel()).unzip();
    thread::scope(|scope| {
        let threads: Vec<_> = inboxes
            .into_iter()
            .enumerate()
            .map(|(me, inbox)| {
                let own = (0..messages as usize).map(|index| Message::numbered(me, index, bytes));
                let member = Member {
                    me: me as u8,
                    own: own.collect(),
                    total: shape.members * messages as usize,
                    members: u16::MAX >> (16 - shape.members),
                };
                let sender = sender.clone();
                scope.spawn(move || member.run(&sender, &inbox))
            })
            .collect();
        scope.spawn(move || sequence(&inbox, &outboxes));
        let joined = threads
            .into_iter()
            .map(|thread| thread.join().expect("no member panics"));
        joined.collect()
    })
}

/// Sends each message to all members, in the order in which they come, until all members have logged
/// everything.
fn sequence(inbox: &Receiver<Parcel>, outboxes: &[Sender<Entry>]) {
    let mut logged = 0;
    while logged < outboxes.len() {
        match inbox.recv() {
            Ok(Parcel::Message(entry)) => {
                for outbox in outboxes {
                    outbox
                        .send(entry.clone())
                        .expect("members outlive the sequencer");
                }
            }
            Ok(Parcel::Logged) => logged += 1,
            Err(_) => return,
        }
    }
}

/// A member before it begins.
struct Member {
    me: u8,
    own: Vec<Message>,
    /// The messages of all members.
    total: usize,
    /// All members, a bit for each.
    members: u16,
}

impl Member {
    /// Sends its messages, and delivers and logs those of all members as they come from the sequencer. It
    /// is done once the sequencer has hung up.
    fn run(self, sequencer: &Sender<Parcel>, inbox: &Receiver<Entry>) -> Ended {
        let send = |parcel| sequencer.send(parcel).expect("the sequencer waits for all");
        let mut history = Vec::with_capacity(1 + self.total);
        history.push(Entry::View {
            age: 0,
            number: 0,
            members: self.members,
        });
        let mut log = log_with(&history, 1 + self.total);
        let mut own = (0..).zip(self.own).map(|(index, bytes)| Entry::Msg {
            sender: self.me,
            index,
            bytes,
        });
        own.by_ref()
            .take(WINDOW)
            .for_each(|entry| send(Parcel::Message(entry)));
        if self.total == 0 {
            send(Parcel::Logged);
        }
        for entry in inbox {
            let is_own = matches!(entry, Entry::Msg { sender, .. } if sender == self.me);
            history.push(entry.clone());
            append(&mut log, &Record::Entry(entry));
            if is_own && let Some(entry) = own.next() {
                send(Parcel::Message(entry));
            }
            if history.len() == 1 + self.total {
                send(Parcel::Logged);
            }
        }
        let logged = log.entries.len();
        Ended {
            is_done: logged == 1 + self.total,
            history,
            logged,
            durable: logged,
        }
    }
}
