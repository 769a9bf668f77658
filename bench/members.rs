//! A group of members in plain Rust: the turns that `dr_machine` defines, to measure the proved members by. It goes
//! deed by deed, or in lockstep with the looks of a row, and the pushes to a member, taken at once.

#[path = "log/file.rs"]
#[allow(dead_code)]
mod file;
#[path = "members/group.rs"]
mod group;
#[path = "members/member.rs"]
mod member;
#[path = "log/records.rs"]
#[allow(dead_code)]
mod records;
#[path = "members/rows.rs"]
mod rows;

use group::Group;
use member::{End, Scripted};
use records::{Entry, MAX_MESSAGE};
use rows::Shape;
use std::env;
use std::io::{self, BufWriter, Write};
use std::process::ExitCode;

/// The turn in which member 0 suspects others, where no word tells it.
const FROM: usize = 2;

/// The most turns that a script may ask for.
const MOST_TURNS: usize = 1_000_000;

/// What the program was told to do.
struct Task {
    shape: Shape,
    /// The messages of each member.
    totals: Vec<u32>,
    bytes: u8,
    /// `None` for lockstep.
    seed: Option<u64>,
    /// In lockstep, rows are taken whole.
    by_rows: bool,
    turns: u32,
    /// How many members, the last ones, member 0 suspects or wishes for, and in which turn.
    suspected: usize,
    from: u32,
    has_report: bool,
}

/// The number in a word, where it is within these bounds.
fn number(word: &str, least: usize, most: usize) -> Option<usize> {
    word.parse()
        .ok()
        .filter(|number| (least..=most).contains(number))
}

/// The same, but this number where there is no word.
fn number_or(default: usize, word: Option<&String>, least: usize, most: usize) -> Option<usize> {
    word.map_or(Some(default), |word| number(word, least, most))
}

/// The last so many members, as a mask.
fn last_members(members: usize, count: usize) -> u16 {
    (members - count..members).fold(0, |mask, member| mask | 1 << member)
}

fn read_task(words: &[String]) -> Option<Task> {
    let (words, rest) = words.split_at_checked(6)?;
    let has_report = rest.last().is_some_and(|word| word == "report");
    let rest = &rest[..rest.len() - usize::from(has_report)];
    if rest.len() > 4 {
        return None;
    }
    let seed = match words[5].as_str() {
        "lockstep" | "rows" => None,
        seed => Some(seed.parse().ok()?),
    };
    let members = number(&words[0], 1, 16)?;
    let senders = number(&words[2], 0, members)?;
    let messages = number(&words[3], 0, 4096)? as u32;
    let totals = (0..members).map(|member| if member < senders { messages } else { 0 });
    Some(Task {
        shape: Shape {
            members,
            window: number(&words[1], 1, 8)?,
            late: last_members(members, number_or(0, rest.get(3), 0, members - 1)?),
        },
        totals: totals.collect(),
        bytes: number(&words[4], 0, MAX_MESSAGE)? as u8,
        seed,
        by_rows: words[5] == "rows",
        turns: number_or(MOST_TURNS, rest.first(), 1, MOST_TURNS)? as u32,
        suspected: number_or(0, rest.get(1), 0, members - 1)?,
        from: number_or(FROM, rest.get(2), 1, MOST_TURNS)? as u32,
        has_report,
    })
}

/// Writes the turns of each member, and the age as `derecho` prints it.
fn report(group: &Group, text: &mut impl Write) -> io::Result<()> {
    let turns = group.members.iter().map(|member| member.turns.to_string());
    let turns = turns.collect::<Vec<_>>().join(" ");
    writeln!(text, "turns {turns}\nage 0 start 0")?;
    for (m, member) in group.members.iter().enumerate() {
        let end = match member.end {
            None => "running".to_owned(),
            Some(End::Done) => "done".to_owned(),
            Some(End::Suspected { by }) => format!("suspected {by}"),
            Some(End::NoMajority { members }) => format!("nomajority {}", listed(members)),
            Some(End::Excluded { view }) => format!("excluded {view}"),
            Some(End::Spent { turns }) => format!("spent {turns}"),
        };
        let (history, logged, durable) = (&member.history, member.logged, member.durable);
        let len = history.len();
        writeln!(
            text,
            "member {m} {end} history {len} logged {logged} durable {durable}"
        )?;
        for entry in history {
            report_entry(text, entry)?;
        }
    }
    text.flush()
}

/// The numbers in a mask, as `derecho` prints them.
fn listed(members: u16) -> String {
    let members = (0..16).filter(|member| (members >> member) & 1 == 1);
    let members: Vec<String> = members.map(|member| member.to_string()).collect();
    members.join(",")
}

fn report_entry(text: &mut impl Write, entry: &Entry) -> io::Result<()> {
    match entry {
        Entry::View {
            age,
            number,
            members,
        } => {
            writeln!(text, "  view {age} {number} {}", listed(*members))
        }
        Entry::Msg {
            sender,
            index,
            bytes,
        } => {
            write!(text, "  msg {sender} {index} ")?;
            let bytes = bytes.bytes();
            if bytes.is_empty() {
                write!(text, "-")?;
            }
            for byte in bytes {
                write!(text, "{byte:02x}")?;
            }
            writeln!(text)
        }
    }
}

fn main() -> ExitCode {
    let words: Vec<String> = env::args().skip(1).collect();
    let Some(task) = read_task(&words) else {
        println!(
            "usage: members MEMBERS WINDOW SENDERS MESSAGES BYTES lockstep|rows|SEED [TURNS [SUSPECTED [FROM [LATE]]]] [report]"
        );
        return ExitCode::from(2);
    };
    let suspected = Scripted {
        turn: task.from,
        members: last_members(task.shape.members, task.suspected),
    };
    let mut group = Group::begin(task.shape, &task.totals, task.bytes, task.turns, suspected);
    let schedule = match task.seed {
        None => {
            group.run_lockstep(task.by_rows);
            "lockstep"
        }
        Some(seed) => {
            group.run_seeded(seed);
            "seeded"
        }
    };
    println!(
        "{schedule}: {} checksum: {:016x}",
        group.entries(),
        group.checksum()
    );
    println!("deeds: {} most turns: {}", group.deeds, group.rounds());
    if task.has_report && report(&group, &mut BufWriter::new(io::stdout())).is_err() {
        return ExitCode::FAILURE;
    }
    ExitCode::SUCCESS
}
