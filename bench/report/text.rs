//! The text of one age's members, as `derecho` prints it.

use crate::records::{Entry, MAX_MESSAGE};
use std::io::{self, Write};

/// The two digits of each byte.
const DIGITS: [[u8; 2]; 256] = {
    let digits = b"0123456789abcdef";
    let mut table = [[0; 2]; 256];
    let mut byte = 0;
    while byte < 256 {
        table[byte] = [digits[byte / 16], digits[byte % 16]];
        byte += 1;
    }
    table
};

/// A member that ended as done, with all of its history logged and durable.
pub struct Member {
    pub history: Vec<Entry>,
}

/// The lines of some entries, and where those of the first ones end.
struct Printed<'a> {
    entries: &'a [Entry],
    text: Vec<u8>,
    ends: Vec<usize>,
}

impl<'a> Printed<'a> {
    fn of(entries: &'a [Entry]) -> Printed<'a> {
        let mut text = Vec::new();
        let mut ends = vec![0];
        for entry in entries {
            push_entry(&mut text, entry);
            ends.push(text.len());
        }
        Printed {
            entries,
            text,
            ends,
        }
    }

    fn write_entries(&self, out: &mut impl Write, entries: &[Entry]) -> io::Result<()> {
        let both = self.entries.iter().zip(entries);
        let same = both.take_while(|(ours, theirs)| ours == theirs).count();
        out.write_all(&self.text[..self.ends[same]])?;
        let mut rest = Vec::new();
        for entry in &entries[same..] {
            push_entry(&mut rest, entry);
        }
        out.write_all(&rest)
    }
}

/// Writes the report of one age with an empty start.
#[inline(never)]
pub fn report(members: &[Member], out: &mut impl Write) -> io::Result<()> {
    out.write_all(b"age 0 start 0\n")?;
    let histories = members.iter().map(|member| member.history.as_slice());
    let printed = Printed::of(histories.max_by_key(|history| history.len()).unwrap_or(&[]));
    for (number, member) in members.iter().enumerate() {
        let count = member.history.len();
        let mut line = Vec::new();
        push_text(
            &mut line,
            format_args!("member {number} done history {count} logged {count} durable {count}\n"),
        );
        out.write_all(&line)?;
        printed.write_entries(out, &member.history)?;
    }
    out.write_all(b"ok\n")
}

/// Appends a line that there are few of.
fn push_text(out: &mut Vec<u8>, text: std::fmt::Arguments<'_>) {
    out.write_fmt(text)
        .expect("a vector takes all that is written");
}

fn push_entry(out: &mut Vec<u8>, entry: &Entry) {
    match entry {
        Entry::View {
            age,
            number,
            members,
        } => {
            let members = (0..16).filter(|member| (members >> member) & 1 == 1);
            let members: Vec<String> = members.map(|member| member.to_string()).collect();
            push_text(
                out,
                format_args!("  view {age} {number} {}\n", members.join(",")),
            );
        }
        Entry::Msg {
            sender,
            index,
            bytes,
        } => {
            out.extend_from_slice(b"  msg ");
            push_decimal(out, u32::from(*sender));
            out.push(b' ');
            push_decimal(out, *index);
            out.push(b' ');
            push_message(out, bytes.bytes());
            out.push(b'\n');
        }
    }
}

fn push_message(out: &mut Vec<u8>, bytes: &[u8]) {
    if bytes.is_empty() {
        out.push(b'-');
    }
    let mut room = [[0; 2]; MAX_MESSAGE];
    for (digits, byte) in room.iter_mut().zip(bytes) {
        *digits = DIGITS[usize::from(*byte)];
    }
    out.extend_from_slice(room[..bytes.len()].as_flattened());
}

fn push_decimal(out: &mut Vec<u8>, mut number: u32) {
    let mut digits = [b'0'; 10];
    let mut first = digits.len();
    loop {
        first -= 1;
        digits[first] = b'0' + (number % 10) as u8;
        number /= 10;
        if number == 0 {
            break;
        }
    }
    out.extend_from_slice(&digits[first..]);
}
