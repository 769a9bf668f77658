//! The loops of `dr_bench` in plain Rust: the same words, the same calls, the same line at the end.

use std::array;
use std::collections::BTreeMap;
use std::env;
use std::process::ExitCode;

const ME: u8 = 0;
const MAX_MESSAGE: usize = 64;
const NULL_MARK: u32 = u32::MAX;
/// How many items there are to be put, over and over.
const ITEMS: usize = 8;
/// How many commands a store is given, how many values are looked up in it, and how many keys there are.
const COMMANDS: u32 = 4096;
const LOOKUPS: u32 = 10_000;
const KEYS: u32 = 512;

/// How many members a group has, and how many slots a ring.
struct Shape {
    members: u8,
    window: u8,
}

impl Shape {
    fn columns(&self) -> usize {
        6 + 2 * usize::from(self.members) + 17 * usize::from(self.window)
    }

    fn recv_column(&self, sender: u8) -> usize {
        5 + usize::from(sender)
    }

    /// The column of the head word of a slot; its 16 body words follow.
    fn head_column(&self, slot: u8) -> usize {
        6 + 2 * usize::from(self.members) + 17 * usize::from(slot)
    }
}

/// A set of members, a bit for each.
#[derive(Clone, Copy)]
struct Mask(u16);

impl Mask {
    fn all(members: u8) -> Mask {
        Mask(u16::MAX >> (16 - members))
    }

    fn has(self, n: u8) -> bool {
        (self.0 >> n) & 1 == 1
    }
}

fn pack_ring(k: u32, low: u32) -> u64 {
    ((u64::from(k) + 1) << 32) + u64::from(low)
}

fn unpack_ring(word: u64) -> (u32, u32) {
    ((word >> 32) as u32, word as u32)
}

fn pack_recv(count: u32, ended: bool) -> u64 {
    (u64::from(count) << 1) + u64::from(ended)
}

fn unpack_recv(word: u64) -> (u32, bool) {
    ((word >> 1) as u32, word & 1 == 1)
}

/// At most 64 bytes.
#[derive(Clone)]
struct Message {
    bytes: [u8; MAX_MESSAGE],
    len: usize,
}

impl Message {
    fn of(from: &[u8]) -> Option<Message> {
        let mut bytes = [0; MAX_MESSAGE];
        bytes.get_mut(..from.len())?.copy_from_slice(from);
        Some(Message {
            bytes,
            len: from.len(),
        })
    }

    fn bytes(&self) -> &[u8] {
        &self.bytes[..self.len]
    }
}

#[derive(Clone)]
enum Item {
    Null,
    Text(Message),
}

/// The words of a member: its own, in the row `me`, those seen of others, and those last pushed to
/// each. Row by row, in flat vectors.
struct Rows {
    columns: usize,
    me: u8,
    words: Vec<u64>,
    sent: Vec<u64>,
}

impl Rows {
    fn new(members: u8, columns: usize, me: u8) -> Rows {
        let places = usize::from(members) * columns;
        Rows {
            columns,
            me,
            words: vec![0; places],
            sent: vec![0; places],
        }
    }

    fn place(&self, row: u8, column: usize) -> usize {
        usize::from(row) * self.columns + column
    }

    fn own(&self, column: usize) -> u64 {
        self.seen(self.me, column)
    }

    fn set_own(&mut self, column: usize, word: u64) {
        self.look(self.me, column, word);
    }

    fn seen(&self, row: u8, column: usize) -> u64 {
        self.words[self.place(row, column)]
    }

    fn look(&mut self, row: u8, column: usize, word: u64) {
        let place = self.place(row, column);
        self.words[place] = word;
    }

    fn changed(&self, to: u8, column: usize) -> bool {
        self.own(column) != self.sent[self.place(to, column)]
    }

    fn pushed(&mut self, to: u8, column: usize) {
        let place = self.place(to, column);
        self.sent[place] = self.own(column);
    }

    /// The head and the body words of a slot.
    fn slot(&self, row: u8, shape: &Shape, slot: u8) -> &[u64] {
        let start = self.place(row, shape.head_column(slot));
        &self.words[start..start + 17]
    }

    fn own_slot(&mut self, shape: &Shape, slot: u8) -> &mut [u64] {
        let start = self.place(self.me, shape.head_column(slot));
        &mut self.words[start..start + 17]
    }
}

fn free(rows: &Rows, shape: &Shape, members: Mask, k: u32) -> bool {
    let window = u32::from(shape.window);
    let column = shape.recv_column(rows.me);
    k < window
        || (0..shape.members).all(|other| {
            other == rows.me
                || !members.has(other)
                || unpack_recv(rows.seen(other, column)).0 > k - window
        })
}

fn put(rows: &mut Rows, shape: &Shape, k: u32, item: &Item) {
    let slot = rows.own_slot(shape, (k % u32::from(shape.window)) as u8);
    match item {
        Item::Null => slot[0] = pack_ring(k, NULL_MARK),
        Item::Text(message) => {
            let bytes = message.bytes();
            slot[0] = pack_ring(k, bytes.len() as u32);
            let whole = bytes.chunks_exact(4);
            let rest = whole.remainder();
            let mut body = slot[1..].iter_mut();
            for (word, chunk) in body.by_ref().zip(whole) {
                let piece = [chunk[0], chunk[1], chunk[2], chunk[3]];
                *word = pack_ring(k, u32::from_be_bytes(piece));
            }
            if let (false, Some(word)) = (rest.is_empty(), body.next()) {
                let mut piece = [0; 4];
                piece[..rest.len()].copy_from_slice(rest);
                *word = pack_ring(k, u32::from_be_bytes(piece));
            }
        }
    }
}

/// The piece in a word of item `k`.
fn piece_of(word: u64, k: u32) -> Option<u32> {
    let (tag, piece) = unpack_ring(word);
    (u64::from(tag) == u64::from(k) + 1).then_some(piece)
}

fn ready(rows: &Rows, shape: &Shape, row: u8, k: u32) -> Option<Item> {
    let slot = rows.slot(row, shape, (k % u32::from(shape.window)) as u8);
    let head = piece_of(slot[0], k)?;
    if head == NULL_MARK {
        return Some(Item::Null);
    }
    let len = head as usize;
    if len > MAX_MESSAGE {
        return None;
    }
    let mut bytes = [0; MAX_MESSAGE];
    for (word, chunk) in slot[1..1 + len.div_ceil(4)].iter().zip(bytes.chunks_exact_mut(4)) {
        chunk.copy_from_slice(&piece_of(*word, k)?.to_be_bytes());
    }
    Message::of(&bytes[..len]).map(Item::Text)
}

/// What was done: how many calls, and a number made of what they left.
struct Tally {
    count: u64,
    checksum: u64,
}

fn mixed(sum: u64, word: u64) -> u64 {
    sum.wrapping_mul(31).wrapping_add(word)
}

fn checksum(rows: &Rows) -> u64 {
    rows.words.iter().fold(0, |sum, word| mixed(sum, *word))
}

#[inline(never)]
fn looks(shape: &Shape, rounds: u32) -> Tally {
    let mut rows = Rows::new(shape.members, shape.columns(), ME);
    let mut count: u64 = 0;
    let mut sum: u64 = 0;
    for round in 0..rounds {
        let done = look_and_push(&mut rows, shape, u64::from(round) + 1);
        count = count.wrapping_add(done.count);
        sum = sum.wrapping_add(done.checksum);
    }
    let checksum = checksum(&rows).wrapping_add(sum);
    Tally { count, checksum }
}

fn look_and_push(rows: &mut Rows, shape: &Shape, word: u64) -> Tally {
    let mut count: u64 = 0;
    let mut sum: u64 = 0;
    for column in 0..shape.columns() {
        rows.set_own(column, word);
        for other in 0..shape.members {
            if other != ME {
                rows.look(other, column, word);
                sum = sum.wrapping_add(rows.seen(other, column));
                if rows.changed(other, column) {
                    rows.pushed(other, column);
                    count = count.wrapping_add(1);
                }
            }
        }
    }
    Tally {
        count,
        checksum: sum,
    }
}

fn long_item(number: u8) -> Item {
    let mut bytes = [0; MAX_MESSAGE];
    let mut byte = number.wrapping_mul(64);
    for place in &mut bytes {
        *place = byte;
        byte = byte.wrapping_add(1);
    }
    Item::Text(Message::of(&bytes).expect("64 bytes are not too many"))
}

#[inline(never)]
fn puts(shape: &Shape, rounds: u32) -> Tally {
    let mut rows = Rows::new(shape.members, shape.columns(), ME);
    for row in 0..shape.members {
        if row != ME {
            rows.look(row, shape.recv_column(ME), pack_recv(u32::MAX, false));
        }
    }
    let items: [Item; ITEMS] = array::from_fn(|number| long_item(number as u8));
    let count = put_items(&mut rows, shape, &items, rounds);
    Tally {
        count,
        checksum: checksum(&rows),
    }
}

fn put_items(rows: &mut Rows, shape: &Shape, items: &[Item; ITEMS], rounds: u32) -> u64 {
    let members = Mask::all(shape.members);
    let mut count: u64 = 0;
    for k in 0..rounds {
        if free(rows, shape, members, k) {
            put(rows, shape, k, &items[k as usize % ITEMS]);
            count = count.wrapping_add(1);
        }
    }
    count
}

#[inline(never)]
fn readies(shape: &Shape, rounds: u32) -> Tally {
    let mut rows = Rows::new(shape.members, shape.columns(), ME);
    fill_slots(&mut rows, shape);
    let mut received = vec![Item::Null; usize::from(shape.members)];
    let count = read_items(&rows, shape, &mut received, rounds);
    let mut checksum = 0;
    for item in &received {
        if let Item::Text(message) = item {
            for byte in message.bytes() {
                checksum = mixed(checksum, u64::from(*byte));
            }
        }
    }
    Tally { count, checksum }
}

fn fill_slots(rows: &mut Rows, shape: &Shape) {
    for row in 0..shape.members {
        if row != ME {
            for slot in 0..shape.window {
                let k = u32::from(slot);
                let head = shape.head_column(slot);
                rows.look(row, head, pack_ring(k, 64));
                for part in 0..16u8 {
                    let piece = u32::from(row) * 0x0f0f_0f0f + u32::from(part);
                    rows.look(row, head + 1 + usize::from(part), pack_ring(k, piece));
                }
            }
        }
    }
}

fn read_items(rows: &Rows, shape: &Shape, received: &mut [Item], rounds: u32) -> u64 {
    let mut count: u64 = 0;
    for _ in 0..rounds {
        for slot in 0..shape.window {
            for row in 0..shape.members {
                if row != ME {
                    if let Some(item) = ready(rows, shape, row, u32::from(slot)) {
                        received[usize::from(row)] = item;
                        count = count.wrapping_add(1);
                    }
                }
            }
        }
    }
    count
}

/// A change of a key: from this version on it has the value, or none.
struct Change {
    version: u64,
    value: Option<Vec<u8>>,
}

/// What commands have made of the values of keys, at each version.
#[derive(Default)]
struct Store {
    changes: BTreeMap<Vec<u8>, Vec<Change>>,
    version: u64,
}

impl Store {
    fn apply(&mut self, message: &Message) {
        self.version += 1;
        let Some((key, value)) = command_of(message.bytes()) else {
            return;
        };
        let change = Change {
            version: self.version,
            value: value.map(<[u8]>::to_vec),
        };
        if let Some(changes) = self.changes.get_mut(key) {
            changes.push(change);
        } else {
            self.changes.insert(key.to_vec(), vec![change]);
        }
    }

    fn get_at(&self, key: &[u8], version: u64) -> Option<&[u8]> {
        let changes = self.changes.get(key)?;
        let count = changes.partition_point(|change| change.version <= version);
        changes[..count].last()?.value.as_deref()
    }
}

/// The key of a command, and the value that it puts or none where it removes the key.
fn command_of(bytes: &[u8]) -> Option<(&[u8], Option<&[u8]>)> {
    let (kind, k, bytes) = match bytes {
        [kind, k, bytes @ ..] => (*kind, usize::from(*k), bytes),
        _ => return None,
    };
    if !(1..=62).contains(&k) {
        return None;
    }
    match kind {
        b'P' if k <= bytes.len() => Some((&bytes[..k], Some(&bytes[k..]))),
        b'D' if k == bytes.len() => Some((bytes, None)),
        _ => None,
    }
}

#[inline(never)]
fn stores(rounds: u32) -> Tally {
    let messages: Vec<Message> = (0..COMMANDS).map(command).collect();
    let mut tally = Tally {
        count: 0,
        checksum: 0,
    };
    for _ in 0..rounds {
        let mut store = Store::default();
        for message in &messages {
            store.apply(message);
        }
        look_up(&store, &mut tally);
    }
    tally
}

fn look_up(store: &Store, tally: &mut Tally) {
    for number in 0..LOOKUPS {
        let key = key_of(number.wrapping_mul(11) % KEYS);
        let version = u64::from(number.wrapping_mul(31) % (COMMANDS + 1));
        if let Some([first, ..]) = store.get_at(&key, version) {
            tally.count = tally.count.wrapping_add(1);
            tally.checksum = mixed(tally.checksum, u64::from(*first));
        }
    }
}

fn command(number: u32) -> Message {
    let [.., last] = number.to_be_bytes();
    let mut bytes = [b'a' + last % 26; 34];
    bytes[1] = 8;
    bytes[2..10].copy_from_slice(&key_of(number.wrapping_mul(7) % KEYS));
    let len = if number % 8 == 7 { 10 } else { 34 };
    bytes[0] = if len == 10 { b'D' } else { b'P' };
    Message::of(&bytes[..len]).expect("34 bytes are not too many")
}

fn key_of(number: u32) -> [u8; 8] {
    let [_, _, high, low] = number.to_be_bytes();
    [b'k', b'e', b'y', 0, 0, 0, high, low]
}

fn main() -> ExitCode {
    let words: Vec<String> = env::args().skip(1).collect();
    let [work, rounds] = words.as_slice() else {
        return usage();
    };
    let Ok(rounds) = rounds.parse() else {
        return usage();
    };
    let shape = Shape {
        members: 16,
        window: 8,
    };
    let tally = match work.as_str() {
        "looks" => looks(&shape, rounds),
        "puts" => puts(&shape, rounds),
        "readies" => readies(&shape, rounds),
        "stores" => stores(rounds),
        _ => return usage(),
    };
    println!("{work}: {} checksum: {:016x}", tally.count, tally.checksum);
    ExitCode::SUCCESS
}

fn usage() -> ExitCode {
    println!("usage: words looks|puts|readies|stores ROUNDS");
    ExitCode::from(2)
}
