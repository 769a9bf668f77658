//! The words that a member has and sees, and the messages in its ring.

use crate::records::{MAX_MESSAGE, Message};
use std::sync::atomic::{AtomicU64, Ordering};

pub const BEAT: usize = 0;
pub const SUSPECTED: usize = 1;
pub const RECEIVED: usize = 2;
pub const LOGGED: usize = 3;
pub const DONE: usize = 4;
/// The bit of a recv word that says that its count is final.
const FINAL: u64 = 1;
/// Where the promise of an accept word begins, and where its tag.
const PROMISE: u32 = 56;
const TAG: u32 = 48;
/// The parts of an accept word.
#[derive(Clone, Copy)]
pub struct Accept {
    pub promise: u8,
    pub tag: u8,
    pub value: u64,
}

impl Accept {
    fn of(word: u64) -> Accept {
        Accept {
            promise: (word >> PROMISE) as u8,
            tag: (word >> TAG) as u8,
            value: word & ((1 << TAG) - 1),
        }
    }
}

/// The head of a null; that of a message is its length.
const NULL_MARK: u32 = u32::MAX;
/// A head word and the words of the body.
const SLOT_WORDS: usize = 17;

/// How many members a group has, and how many slots a ring; and who comes in a later view than the first, a bit
/// for each.
#[derive(Clone, Copy)]
pub struct Shape {
    pub members: usize,
    pub window: usize,
    pub late: u16,
}

impl Shape {
    pub fn columns(&self) -> usize {
        6 + 2 * self.members + SLOT_WORDS * self.window
    }

    /// The number of banks, one for each view that there can be.
    pub fn banks(&self) -> usize {
        self.members + self.late.count_ones() as usize
    }

    /// The number of words of the table.
    pub fn words(&self) -> usize {
        self.banks() * self.members * self.members * self.columns()
    }

    pub fn recv_column(&self, sender: usize) -> usize {
        5 + sender
    }

    pub fn leavers_column(&self) -> usize {
        5 + self.members
    }

    pub fn trim_column(&self, sender: usize) -> usize {
        6 + self.members + sender
    }

    /// The column of the head word of the slot of item `k`.
    pub fn head_column(&self, k: u32) -> usize {
        6 + 2 * self.members + SLOT_WORDS * (k % self.window as u32) as usize
    }
}

impl Message {
    /// Message `index` of a member: bytes that count on, each below 128.
    pub fn numbered(sender: usize, index: usize, len: u8) -> Message {
        let mut bytes = [0; MAX_MESSAGE];
        for (place, byte) in bytes[..usize::from(len)].iter_mut().enumerate() {
            *byte = b'a' + ((31 * sender + 7 * index + place) % 26) as u8;
        }
        Message { bytes, len }
    }
}

#[derive(Clone)]
pub enum Item {
    Null,
    Text(Message),
}

fn ring_word(k: u32, piece: u32) -> u64 {
    ((u64::from(k) + 1) << 32) | u64::from(piece)
}

/// The piece in a word of item `k`.
fn piece_of(word: u64, k: u32) -> Option<u32> {
    (word >> 32 == u64::from(k) + 1).then_some(word as u32)
}

fn body_words(len: u32) -> usize {
    len.div_ceil(4) as usize
}

/// The words of a member: its own, those seen of others, and those last pushed to each. Row by row,
/// in flat vectors.
pub struct Rows {
    pub columns: usize,
    /// Where the own row begins.
    pub own_row: usize,
    words: Vec<u64>,
    sent: Vec<u64>,
}

impl Rows {
    pub fn new(members: usize, columns: usize, me: usize) -> Rows {
        Rows {
            columns,
            own_row: me * columns,
            words: vec![0; members * columns],
            sent: vec![0; members * columns],
        }
    }

    pub fn own(&self, column: usize) -> u64 {
        self.words[self.own_row + column]
    }

    pub fn set_own(&mut self, column: usize, word: u64) {
        self.words[self.own_row + column] = word;
    }

    pub fn own_words(&self) -> &[u64] {
        &self.words[self.own_row..][..self.columns]
    }

    /// All words are 0 again, as at the beginning.
    pub fn renew(&mut self) {
        self.words.fill(0);
        self.sent.fill(0);
    }

    /// Makes the count in an own recv word final.
    pub fn finish(&mut self, column: usize) {
        self.words[self.own_row + column] |= FINAL;
    }

    /// Puts the promise to this member into an own accept word.
    pub fn promise(&mut self, column: usize, member: u32) {
        let word = &mut self.words[self.own_row + column];
        *word = u64::from(member) << PROMISE | *word & ((1 << PROMISE) - 1);
    }

    /// Puts a tag and a value into an own accept word.
    pub fn accept(&mut self, column: usize, tag: u8, value: u64) {
        let word = &mut self.words[self.own_row + column];
        *word = *word >> PROMISE << PROMISE | u64::from(tag) << TAG | value;
    }

    pub fn accepted(&self, row: usize, column: usize) -> Accept {
        Accept::of(self.seen(row, column))
    }

    /// Whether the count in a recv word is final.
    pub fn is_final(&self, row: usize, column: usize) -> bool {
        self.seen(row, column) & FINAL != 0
    }

    pub fn seen(&self, row: usize, column: usize) -> u64 {
        self.words[row * self.columns + column]
    }

    pub fn look(&mut self, row: usize, column: usize, word: u64) {
        self.words[row * self.columns + column] = word;
    }

    pub fn pushed(&mut self, to: usize, column: usize) {
        self.sent[to * self.columns + column] = self.own(column);
    }

    /// The first column, from `from` on, whose own word isn't the one last pushed to `to`.
    pub fn next_changed(&self, to: usize, from: usize) -> Option<usize> {
        let own = &self.words[self.own_row + from..self.own_row + self.columns];
        let sent = &self.sent[to * self.columns + from..(to + 1) * self.columns];
        let distance = own.iter().zip(sent).position(|(own, sent)| own != sent)?;
        Some(from + distance)
    }

    /// The words of a slot, by the column of its head.
    fn slot(&self, row: usize, head: usize) -> &[u64] {
        &self.words[row * self.columns + head..][..SLOT_WORDS]
    }

    /// Whether a slot has all words that item `k` needs.
    pub fn is_ready(&self, row: usize, head: usize, k: u32) -> bool {
        let slot = self.slot(row, head);
        match piece_of(slot[0], k) {
            None => false,
            Some(NULL_MARK) => true,
            Some(len) if len as usize > MAX_MESSAGE => false,
            Some(len) => {
                let mut body = slot[1..1 + body_words(len)].iter();
                body.all(|word| piece_of(*word, k).is_some())
            }
        }
    }

    /// The item in a slot that is ready.
    pub fn item(&self, row: usize, head: usize) -> Item {
        let slot = self.slot(row, head);
        let len = slot[0] as u32;
        if len == NULL_MARK {
            return Item::Null;
        }
        let body = &slot[1..1 + body_words(len)];
        let mut bytes = [0; MAX_MESSAGE];
        for (chunk, word) in bytes.chunks_exact_mut(4).zip(body) {
            chunk.copy_from_slice(&(*word as u32).to_be_bytes());
        }
        let len = len as u8;
        Item::Text(Message { bytes, len })
    }

    /// Writes the words of item `k` into its own slot.
    pub fn put(&mut self, head: usize, k: u32, item: &Item) {
        let slot = &mut self.words[self.own_row + head..][..SLOT_WORDS];
        let Item::Text(message) = item else {
            slot[0] = ring_word(k, NULL_MARK);
            return;
        };
        let len = u32::from(message.len);
        slot[0] = ring_word(k, len);
        let body = slot[1..1 + body_words(len)].iter_mut();
        for (word, chunk) in body.zip(message.bytes.chunks_exact(4)) {
            let piece = [chunk[0], chunk[1], chunk[2], chunk[3]];
            *word = ring_word(k, u32::from_be_bytes(piece));
        }
    }
}

/// Whole rows at once, over words that nobody else looks at.
#[allow(dead_code)]
impl Rows {
    /// Looks at all words of a row.
    pub fn copy_row(&mut self, row: usize, words: &[u64]) {
        self.row_mut(row).copy_from_slice(words);
    }

    /// Pushes the own words that have changed to a member's copy of the own row, and counts them.
    pub fn write_row(&mut self, to: usize, words: &mut [u64]) -> u64 {
        let own = &self.words[self.own_row..][..self.columns];
        let sent = &mut self.sent[to * self.columns..][..self.columns];
        let mut pushes = 0;
        for ((own, sent), word) in own.iter().zip(sent).zip(words) {
            if own != sent {
                *word = *own;
                *sent = *own;
                pushes += 1;
            }
        }
        pushes
    }
}

/// Whole rows at once, over words that other threads share.
#[allow(dead_code)]
impl Rows {
    fn row_mut(&mut self, row: usize) -> &mut [u64] {
        &mut self.words[row * self.columns..][..self.columns]
    }

    /// Looks at all words of a row.
    pub fn look_row(&mut self, row: usize, words: &[AtomicU64]) {
        for (seen, word) in self.row_mut(row).iter_mut().zip(words) {
            *seen = word.load(Ordering::Acquire);
        }
    }

    /// The same, and counts the words that aren't those last seen.
    pub fn look_row_counted(&mut self, row: usize, words: &[AtomicU64]) -> u64 {
        let mut changed = 0;
        for (seen, word) in self.row_mut(row).iter_mut().zip(words) {
            let word = word.load(Ordering::Acquire);
            changed += u64::from(*seen != word);
            *seen = word;
        }
        changed
    }

    /// Pushes the own words that aren't those last pushed to `to`, and counts them.
    #[inline]
    pub fn push_row(&mut self, to: usize, words: &[AtomicU64], order: Ordering) -> u64 {
        let own = &self.words[self.own_row..][..self.columns];
        let sent = &mut self.sent[to * self.columns..][..self.columns];
        let mut pushes = 0;
        for ((own, sent), word) in own.iter().zip(sent).zip(words) {
            if own != sent {
                word.store(*own, order);
                *sent = *own;
                pushes += 1;
            }
        }
        pushes
    }
}
