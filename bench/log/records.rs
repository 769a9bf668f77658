//! Records and their bytes.

pub const MAX_MEMBERS: usize = 16;
pub const MAX_MESSAGE: usize = 64;
pub const MAX_RECORD: usize = 72;

const VIEW: u8 = 1;
const MESSAGE: u8 = 2;
const VOTE: u8 = 3;

/// A message of at most 64 bytes; what is behind them is 0.
#[derive(Clone, PartialEq, Eq)]
pub struct Message {
    pub bytes: [u8; MAX_MESSAGE],
    pub len: u8,
}

impl Message {
    fn of(bytes: &[u8]) -> Message {
        let mut all = [0; MAX_MESSAGE];
        all[..bytes.len()].copy_from_slice(bytes);
        Message {
            bytes: all,
            len: bytes.len() as u8,
        }
    }

    pub fn bytes(&self) -> &[u8] {
        &self.bytes[..usize::from(self.len)]
    }
}

#[derive(Clone, PartialEq, Eq)]
pub enum Entry {
    View {
        age: u16,
        number: u8,
        members: u16,
    },
    Msg {
        sender: u8,
        index: u32,
        bytes: Message,
    },
}

/// Who leaves a view, and how many items of each member are delivered before that.
#[derive(Clone, Copy)]
pub struct Value {
    pub leavers: u16,
    pub trim: [u32; MAX_MEMBERS],
}

#[derive(Clone, Copy)]
pub struct Vote {
    pub age: u16,
    pub view: u8,
    pub ballot: u8,
    pub members: u8,
    pub value: Value,
}

pub enum Record {
    Entry(Entry),
    Vote(Vote),
}

impl Entry {
    /// A message of at most 64 bytes.
    pub fn msg(sender: u8, index: u32, bytes: &[u8]) -> Entry {
        Entry::Msg {
            sender,
            index,
            bytes: Message::of(bytes),
        }
    }

    /// A number made of another and of this entry.
    pub fn mixed(sum: u64, entry: &Entry) -> u64 {
        match entry {
            Entry::View { members, .. } => mixed(sum, u64::from(*members)),
            Entry::Msg {
                sender,
                index,
                bytes,
            } => {
                let sum = mixed(mixed(sum, u64::from(*sender)), u64::from(*index));
                let bytes = bytes.bytes().iter();
                bytes.fold(sum, |sum, byte| mixed(sum, u64::from(*byte)))
            }
        }
    }
}

/// A checksum and one more word.
pub fn mixed(sum: u64, word: u64) -> u64 {
    sum.wrapping_mul(31).wrapping_add(word)
}

/// Puts these bytes at a place, and answers the place behind them.
fn put(into: &mut [u8], at: usize, bytes: &[u8]) -> usize {
    into[at..at + bytes.len()].copy_from_slice(bytes);
    at + bytes.len()
}

/// The field of `N` bytes at a place, if it is whole.
fn field<const N: usize>(from: &[u8], at: usize) -> Option<[u8; N]> {
    from.get(at..at + N)?.try_into().ok()
}

impl Record {
    /// Writes the record to the front, and answers how many bytes it takes.
    pub fn encode(&self, into: &mut [u8]) -> usize {
        match self {
            Record::Entry(Entry::View {
                age,
                number,
                members,
            }) => {
                let at = put(into, 0, &[VIEW]);
                let at = put(into, at, &age.to_be_bytes());
                let at = put(into, at, &[*number]);
                put(into, at, &members.to_be_bytes())
            }
            Record::Entry(Entry::Msg {
                sender,
                index,
                bytes,
            }) => {
                let at = put(into, 0, &[MESSAGE, *sender]);
                let at = put(into, at, &index.to_be_bytes());
                let at = put(into, at, &[bytes.len]);
                put(into, at, bytes.bytes())
            }
            Record::Vote(vote) => vote.encode(into),
        }
    }

    /// The record in front of these bytes, and how many of them it takes.
    pub fn decode(from: &[u8]) -> Option<(Record, usize)> {
        match *from.first()? {
            VIEW => {
                let age = u16::from_be_bytes(field(from, 1)?);
                let [number] = field(from, 3)?;
                let members = u16::from_be_bytes(field(from, 4)?);
                let view = Entry::View {
                    age,
                    number,
                    members,
                };
                (members != 0).then_some((Record::Entry(view), 6))
            }
            MESSAGE => {
                let [sender] = field(from, 1)?;
                let index = u32::from_be_bytes(field(from, 2)?);
                let [len] = field(from, 6)?;
                if usize::from(sender) >= MAX_MEMBERS || usize::from(len) > MAX_MESSAGE {
                    return None;
                }
                let end = 7 + usize::from(len);
                let message = Entry::msg(sender, index, from.get(7..end)?);
                Some((Record::Entry(message), end))
            }
            VOTE => Vote::decode(from),
            _ => None,
        }
    }
}

impl Vote {
    fn encode(&self, into: &mut [u8]) -> usize {
        let at = put(into, 0, &[VOTE]);
        let at = put(into, at, &self.age.to_be_bytes());
        let at = put(into, at, &[self.view, self.ballot]);
        let at = put(into, at, &self.value.leavers.to_be_bytes());
        let mut at = put(into, at, &[self.members]);
        for count in &self.value.trim[..usize::from(self.members)] {
            at = put(into, at, &count.to_be_bytes());
        }
        at
    }

    fn decode(from: &[u8]) -> Option<(Record, usize)> {
        let age = u16::from_be_bytes(field(from, 1)?);
        let [view, ballot] = field(from, 3)?;
        let leavers = u16::from_be_bytes(field(from, 5)?);
        let [members] = field(from, 7)?;
        let count = usize::from(members);
        if !(1..=MAX_MEMBERS).contains(&count) || ballot >= members || u32::from(leavers) >> members != 0 {
            return None;
        }
        let mut trim = [0; MAX_MEMBERS];
        for (s, place) in trim[..count].iter_mut().enumerate() {
            *place = u32::from_be_bytes(field(from, 8 + 4 * s)?);
        }
        let vote = Vote {
            age,
            view,
            ballot,
            members,
            value: Value { leavers, trim },
        };
        Some((Record::Vote(vote), 8 + 4 * count))
    }
}
