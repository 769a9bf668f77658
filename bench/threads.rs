//! A group of members in threads, in plain Rust, to measure the proved threads by: one thread for each
//! member over one table of atomic words, or members that send their messages through one sequencer.

#[path = "threads/channels.rs"]
mod channels;
#[path = "log/file.rs"]
#[allow(dead_code)]
mod file;
#[path = "members/member.rs"]
#[allow(dead_code)]
mod member;
#[path = "log/records.rs"]
#[allow(dead_code)]
mod records;
#[path = "members/rows.rs"]
#[allow(dead_code)]
mod rows;
#[path = "threads/table.rs"]
mod table;
#[path = "threads/tally.rs"]
mod tally;

use records::MAX_MESSAGE;
use rows::Shape;
use std::env;
use std::process::ExitCode;
use table::{Pace, Spent};
use tally::Ended;

/// The slots of a ring, and the messages of a member that may be on their way through the sequencer.
const WINDOW: usize = 8;

/// What the program was told to do.
struct Task {
    members: usize,
    /// The messages of each member.
    messages: u32,
    bytes: u8,
    way: Way,
    extra: Option<Extra>,
}

/// What else a table is to do.
enum Extra {
    /// Its stores are in one order with all others, as those of the proved threads are.
    Sequential,
    /// It prints where the threads' time goes.
    Times,
}

/// How messages come from member to member.
enum Way {
    Table(Pace),
    Channels,
}

/// The number in a word, where it is within these bounds.
fn number(word: &str, least: usize, most: usize) -> Option<usize> {
    word.parse()
        .ok()
        .filter(|number| (least..=most).contains(number))
}

fn read_task(words: &[String]) -> Option<Task> {
    let ([members, messages, bytes, way], rest) = words.split_first_chunk()?;
    let extra = match rest {
        [] => None,
        [word] if word == "sequential" => Some(Extra::Sequential),
        [word] if word == "times" => Some(Extra::Times),
        _ => return None,
    };
    Some(Task {
        members: number(members, 1, 16)?,
        messages: number(messages, 0, 4096)? as u32,
        bytes: number(bytes, 0, MAX_MESSAGE)? as u8,
        way: match way.as_str() {
            "free" => Way::Table(Pace::Free),
            "spin" => Way::Table(Pace::Spin),
            "yield" => Way::Table(Pace::Yield),
            "channels" => Way::Channels,
            _ => return None,
        },
        extra,
    })
}

/// Prints how many members ended as done and how many have the history of the first one, how many
/// entries all histories have, and their checksum.
fn print_ends(ended: &[Ended]) {
    println!(
        "done {} agreed {} entries {} checksum {:016x}",
        ended.iter().filter(|member| member.is_done).count(),
        ended
            .iter()
            .filter(|member| member.history == ended[0].history)
            .count(),
        ended
            .iter()
            .map(|member| member.history.len())
            .sum::<usize>(),
        ended
            .iter()
            .fold(0, |sum: u64, member| sum.wrapping_add(member.checksum())),
    );
}

/// Prints how many deeds of each kind all threads did, and their nanoseconds.
fn print_times(spent: &Spent) {
    print!(
        "turns {} looks {} changed {} ",
        spent.turns, spent.looks, spent.changed
    );
    println!(
        "pushes {} acts {} appends {}",
        spent.pushes, spent.acts, spent.appends
    );
    print!("looking {} pushing {} ", spent.look_nanos, spent.push_nanos);
    println!(
        "acting {} backing-off {}",
        spent.act_nanos, spent.pace_nanos
    );
}

fn main() -> ExitCode {
    let words: Vec<String> = env::args().skip(1).collect();
    let Some(task) = read_task(&words) else {
        println!(
            "usage: threads MEMBERS MESSAGES SIZE free|spin|yield|channels [sequential|times]"
        );
        return ExitCode::from(2);
    };
    let shape = Shape {
        members: task.members,
        window: WINDOW,
        late: 0,
    };
    let (messages, bytes) = (task.messages, task.bytes);
    match (task.way, task.extra) {
        (Way::Channels, _) => print_ends(&channels::run(shape, messages, bytes)),
        (Way::Table(pace), None) => {
            print_ends(&table::run::<false, false>(shape, messages, bytes, pace).0);
        }
        (Way::Table(pace), Some(Extra::Sequential)) => {
            print_ends(&table::run::<false, true>(shape, messages, bytes, pace).0);
        }
        (Way::Table(pace), Some(Extra::Times)) => {
            let (ended, spent) = table::run::<true, false>(shape, messages, bytes, pace);
            print_ends(&ended);
            print_times(&spent);
        }
    }
    ExitCode::SUCCESS
}
