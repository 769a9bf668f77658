//! A member of a group, with its place in its turn.

use crate::records::{Entry, MAX_MEMBERS, Message, Record, Value, Vote};
use crate::rows::{BEAT, DONE, Item, LOGGED, RECEIVED, Rows, SUSPECTED, Shape};
use std::{iter, mem};
use std::sync::atomic::{AtomicU64, Ordering};

/// What it has put: a message by its index, or a null.
#[allow(dead_code)]
enum Sent {
    Null,
    Index(u32),
}

#[derive(Clone, Copy)]
pub enum End {
    Done,
    Suspected { by: usize },
    NoMajority { members: u16 },
    Excluded { view: u8 },
    Spent { turns: u32 },
}

/// What a member does next, with indices of the table.
pub enum Deed {
    Look(usize),
    Push(usize, u64),
    Act(usize, u64),
    /// One that comes up seldom, which [`Member::seldom`] tells.
    Seldom,
    Rest,
}

/// A deed other than a look, a push or an act.
pub enum Seldom {
    Append,
    /// The letter for this newcomer of its view.
    Give(usize),
    /// Its own letter, if there is one.
    Take,
}

/// Where a member stands in its turn.
#[derive(Clone, Copy)]
enum Place {
    Beat,
    Look { row: usize, column: usize },
    Suspect { other: usize },
    Suspected { by: usize },
    NoMajority,
    Receive { sender: usize },
    Send,
    Null,
    Deliver,
    Append,
    Give { newcomer: usize },
    Take,
    Publish,
    Report,
    Mark,
    Propose,
    Accept,
    Commit,
    Excluded,
    Push { to: usize, column: usize },
    Done,
    Finish,
    Spent,
    Rest,
}

/// A spot of the round robin over the members of a view, by their ranks.
#[derive(Clone, Copy)]
struct Spot {
    number: usize,
    rank: usize,
    round: u32,
}

impl Spot {
    const FIRST: Spot = Spot {
        number: 0,
        rank: 0,
        round: 0,
    };

    fn step(&mut self, members: usize) {
        self.number += 1;
        self.rank += 1;
        if self.rank == members {
            self.rank = 0;
            self.round += 1;
        }
    }
}

/// Whom a member suspects or wishes for by its script, and in which turn.
#[derive(Clone, Copy)]
pub struct Scripted {
    pub turn: u32,
    pub members: u16,
}

impl Scripted {
    pub const NOBODY: Scripted = Scripted { turn: 0, members: 0 };
}

/// What a member keeps of a view that it has left: its own words, its counts, and what it put. (It says so
/// at its end; nothing reads it here.)
#[allow(dead_code)]
struct Left {
    own: Vec<u64>,
    counts: Vec<u32>,
    sent: Vec<Sent>,
}

/// A member, which always stands at a place of its turn at which there is something to do.
pub struct Member {
    shape: Shape,
    pub me: usize,
    /// The number of words of a copy, the index in the table of the first word of the bank of its view, and of
    /// the first one of the own copy in it.
    copy_words: usize,
    bank: usize,
    own_copy: usize,
    messages: Vec<Message>,
    totals: Vec<u32>,
    most: u32,
    rows: Rows,
    /// The number of the view, and its members, a bit for each, and ascending.
    number: u8,
    members: u16,
    view: Vec<usize>,
    /// Those of them that it suspects, whose rows it looks at no more, and the late members that it wishes for;
    /// those that it suspects or wishes for by its script; and the late members that no View of its history
    /// names.
    suspects: u16,
    scripted: Scripted,
    wishable: u16,
    /// The newcomers of its view to which it is yet to give their letters.
    letterless: u16,
    /// The vote on its log that it has not yet acted on, and the value that it has committed.
    pending: Option<Vote>,
    pub committed: Option<Value>,
    counts: Vec<u32>,
    /// Item `k` of member `s` at `k` times the number of members plus `s`.
    items: Vec<Item>,
    /// The first spot whose item isn't there.
    front: Spot,
    /// The index of its first message in the view, what it has put there, and what it keeps of earlier views.
    base: usize,
    sent: Vec<Sent>,
    left: Vec<Left>,
    /// The next spot that it delivers.
    next: Spot,
    /// Every member was seen to have received the spots below this one. It is asked anew once the next
    /// spot has come to it.
    received: u64,
    pub history: Vec<Entry>,
    /// How many messages of each member the history has.
    delivered: Vec<u32>,
    pub room: usize,
    pub logged: usize,
    pub durable: usize,
    pub turns: u32,
    limit: u32,
    acts: u64,
    place: Place,
    pub end: Option<End>,
}

impl Member {
    /// A member before its first turn, with its messages, the number of those of each member, and the others that
    /// it suspects or wishes for by its script. All have View 0, which has everyone who isn't late. No later call
    /// takes memory but those by which it leaves a view.
    pub fn begin(
        shape: Shape,
        me: usize,
        messages: Vec<Message>,
        totals: Vec<u32>,
        limit: u32,
        scripted: Scripted,
    ) -> Member {
        let roster = shape.members;
        let members = u16::MAX >> (16 - roster) & !shape.late;
        let columns = shape.columns();
        let most = totals.iter().copied().max().unwrap_or(0);
        let spots = most as usize * roster;
        let room = spots + shape.banks();
        let mut history = Vec::with_capacity(room);
        history.push(Entry::View {
            age: 0,
            number: 0,
            members,
        });
        let mut rows = Rows::new(roster, columns, me);
        rows.set_own(LOGGED, u64::from(has(members, me)));
        Member {
            shape,
            me,
            copy_words: roster * columns,
            bank: 0,
            own_copy: me * roster * columns,
            base: 0,
            sent: Vec::with_capacity(most as usize),
            left: Vec::new(),
            messages,
            totals,
            most,
            rows,
            number: 0,
            members,
            view: listed(members, roster),
            suspects: 0,
            scripted,
            wishable: shape.late,
            letterless: 0,
            pending: None,
            committed: None,
            counts: vec![0; roster],
            items: vec![Item::Null; spots],
            front: Spot::FIRST,
            next: Spot::FIRST,
            received: 0,
            history,
            delivered: vec![0; roster],
            room,
            logged: 1,
            durable: 1,
            turns: 0,
            limit,
            acts: 0,
            place: Place::Beat,
            end: None,
        }
    }

    /// The deed that is due.
    #[inline]
    pub fn next(&self) -> Deed {
        match self.place {
            Place::Look { row, column } => {
                Deed::Look(self.own_copy + row * self.rows.columns + column)
            }
            Place::Push { to, column } => {
                let index = self.bank + to * self.copy_words + self.rows.own_row + column;
                Deed::Push(index, self.rows.own(column))
            }
            Place::Append | Place::Give { .. } | Place::Take => Deed::Seldom,
            _ if self.end.is_some() => Deed::Rest,
            _ => Deed::Act(
                self.own_copy + self.rows.own_row + BEAT,
                self.acts.saturating_add(1),
            ),
        }
    }

    /// The deed that is due, where it is a seldom one.
    pub fn seldom(&self) -> Seldom {
        match self.place {
            Place::Give { newcomer } => Seldom::Give(newcomer),
            Place::Take => Seldom::Take,
            _ => Seldom::Append,
        }
    }

    /// What it appends: the next entry of its history, or where all are on its log its vote.
    pub fn record(&self) -> Record {
        match self.history.get(self.logged) {
            Some(entry) => Record::Entry(entry.clone()),
            None => Record::Vote(self.vote()),
        }
    }

    /// Goes on after a look that saw this word.
    #[inline]
    pub fn looked(&mut self, word: u64) {
        if let Place::Look { row, column } = self.place {
            self.place = Place::Look {
                row,
                column: column + 1,
            };
            self.rows.look(row, column, word);
            if column + 1 == self.rows.columns {
                self.place = self.seek_look(row + 1);
            }
        }
    }

    /// Goes on after a push.
    #[inline]
    pub fn pushed(&mut self) {
        if let Place::Push { to, column } = self.place {
            self.rows.pushed(to, column);
            self.place = match self.rows.next_changed(to, column + 1) {
                Some(column) => Place::Push { to, column },
                None => self.seek_push(to + 1),
            };
        }
    }

    // Appends and acts are seldom. Out of line, they leave looks and pushes a small loop.

    /// Goes on after an append.
    #[inline(never)]
    pub fn appended(&mut self) {
        self.place = if self.logged < self.history.len() {
            self.logged += 1;
            self.seek_publish()
        } else {
            self.pending = Some(self.vote());
            self.seek_propose()
        };
    }

    /// Goes on after an act.
    #[inline(never)]
    pub fn acted(&mut self) {
        self.acts = self.acts.saturating_add(1);
        self.rows.set_own(BEAT, self.acts);
        self.place = match self.place {
            Place::Beat => {
                self.turns = self.turns.saturating_add(1);
                self.seek_take()
            }
            Place::Suspect { other } => {
                self.suspect(other);
                self.seek_judge()
            }
            Place::Suspected { by } => self.halt(End::Suspected { by }),
            Place::NoMajority => self.halt(End::NoMajority {
                members: self.unsuspected(),
            }),
            Place::Receive { sender } => {
                self.receive(sender);
                self.seek_receive(sender)
            }
            Place::Send => {
                self.send();
                self.seek_send()
            }
            Place::Null => {
                self.put(Sent::Null, Item::Null);
                self.seek_null()
            }
            Place::Deliver => {
                self.deliver();
                self.seek_deliver()
            }
            Place::Publish => {
                self.rows.set_own(LOGGED, self.logged as u64);
                self.seek_append()
            }
            Place::Report => {
                self.durable = self.least_seen(LOGGED) as usize;
                self.seek_report()
            }
            Place::Mark => {
                self.rows.set_own(DONE, 1);
                self.seek_mark()
            }
            Place::Propose | Place::Accept => {
                self.accept();
                self.seek_commit()
            }
            Place::Commit => {
                self.committed = Some(self.shown(self.me));
                self.seek_excluded()
            }
            Place::Excluded => self.halt(End::Excluded {
                view: self.number + 1,
            }),
            Place::Done => self.halt(End::Done),
            Place::Finish => {
                self.finish();
                self.seek_give()
            }
            Place::Spent => self.halt(End::Spent { turns: self.turns }),
            place => place,
        };
    }

    /// Writes its history up to and with its last View into an empty list.
    pub fn letter(&self, into: &mut Vec<Entry>) {
        let last = self.history.iter().rposition(is_view);
        into.extend_from_slice(&self.history[..last.map_or(0, |last| last + 1)]);
    }

    /// Goes on after it gave the letter.
    #[inline(never)]
    pub fn given(&mut self) {
        if let Place::Give { newcomer } = self.place {
            self.letterless &= !(1 << newcomer);
            self.place = self.seek_give();
        }
    }

    /// Goes on after it looked for its letter: it comes into the last view of it.
    #[inline(never)]
    pub fn taken(&mut self, letter: Option<&[Entry]>) {
        if let Some(letter) = letter {
            self.join(letter);
        }
        self.place = self.seek_done();
    }

    // Each of these gives the first place, from one on in the order of a turn, at which there is
    // something to do.

    fn seek_take(&self) -> Place {
        if has(self.members, self.me) {
            self.seek_look(0)
        } else {
            Place::Take
        }
    }

    fn seek_look(&self, row: usize) -> Place {
        let others = self.unsuspected_others();
        match (row..self.shape.members).find(|row| has(others, *row)) {
            Some(row) => Place::Look { row, column: 0 },
            None => self.seek_judge(),
        }
    }

    fn seek_judge(&self) -> Place {
        if let Some(by) = self.least_row_naming(1 << self.me) {
            Place::Suspected { by }
        } else if let Some(other) = self.next_suspect() {
            Place::Suspect { other }
        } else if !self.is_wedged() {
            self.seek_receive(0)
        } else if !self.has_majority() {
            Place::NoMajority
        } else {
            self.seek_append()
        }
    }

    fn seek_receive(&self, sender: usize) -> Place {
        let is_due = |sender: &usize| self.is_other(*sender) && self.may_receive(*sender);
        match (sender..self.shape.members).find(is_due) {
            Some(sender) => Place::Receive { sender },
            None => self.seek_send(),
        }
    }

    fn seek_send(&self) -> Place {
        if self.may_send() {
            Place::Send
        } else {
            self.seek_null()
        }
    }

    fn seek_null(&self) -> Place {
        if self.may_null() {
            Place::Null
        } else {
            self.seek_deliver()
        }
    }

    fn seek_deliver(&self) -> Place {
        if self.may_deliver() {
            Place::Deliver
        } else {
            self.seek_append()
        }
    }

    fn seek_append(&self) -> Place {
        if self.logged < self.history.len() {
            Place::Append
        } else {
            self.seek_publish()
        }
    }

    fn seek_publish(&self) -> Place {
        if self.rows.own(LOGGED) < self.logged as u64 {
            Place::Publish
        } else {
            self.seek_report()
        }
    }

    fn seek_report(&self) -> Place {
        if self.least_seen(LOGGED) > self.durable as u64 {
            Place::Report
        } else {
            self.seek_mark()
        }
    }

    fn seek_mark(&self) -> Place {
        if self.may_mark() {
            Place::Mark
        } else if self.is_wedged() {
            self.seek_vote()
        } else {
            self.seek_push(0)
        }
    }

    // Votes are for those that are wedged. Out of line, they leave the others a short way to pushes.
    #[inline(never)]
    fn seek_vote(&self) -> Place {
        if self.may_vote() {
            Place::Append
        } else {
            self.seek_commit()
        }
    }

    /// What it does with the vote that waits.
    fn seek_propose(&self) -> Place {
        if self.promise() == self.me {
            Place::Propose
        } else {
            Place::Accept
        }
    }

    fn seek_commit(&self) -> Place {
        if self.may_commit() {
            Place::Commit
        } else {
            self.seek_excluded()
        }
    }

    fn seek_excluded(&self) -> Place {
        match &self.committed {
            Some(value) if has(value.leavers, self.me) => Place::Excluded,
            _ => self.seek_push(0),
        }
    }

    fn seek_push(&self, to: usize) -> Place {
        let mut others = (to..self.shape.members).filter(|to| self.is_other(*to));
        match others.find_map(|to| Some((to, self.rows.next_changed(to, 0)?))) {
            Some((to, column)) => Place::Push { to, column },
            None => self.seek_done(),
        }
    }

    fn seek_done(&self) -> Place {
        if self.is_all_done() {
            Place::Done
        } else if self.committed.is_some() {
            Place::Finish
        } else {
            self.seek_give()
        }
    }

    fn seek_give(&self) -> Place {
        match least_of(self.letterless) {
            Some(newcomer) => Place::Give { newcomer },
            None => self.seek_spent(),
        }
    }

    fn seek_spent(&self) -> Place {
        if self.turns == self.limit {
            Place::Spent
        } else {
            Place::Beat
        }
    }

    fn is_other(&self, member: usize) -> bool {
        member != self.me && has(self.members, member)
    }

    fn unsuspected(&self) -> u16 {
        self.members & !self.suspects
    }

    fn unsuspected_rows(&self) -> impl DoubleEndedIterator<Item = usize> {
        let unsuspected = self.unsuspected();
        self.view
            .iter()
            .copied()
            .filter(move |row| has(unsuspected, *row))
    }

    fn unsuspected_others(&self) -> u16 {
        self.unsuspected() & !(1 << self.me)
    }

    /// The others that it may suspect next, and those that it may wish for.
    fn namable(&self) -> u16 {
        self.unsuspected_others() | self.wishable & !self.suspects
    }

    /// Who suspects or wishes for somebody does no more with items, and isn't done any more.
    fn is_wedged(&self) -> bool {
        self.suspects != 0
    }

    /// It votes in each view at most once by the ballot of each member.
    pub fn most_votes(&self) -> usize {
        self.shape.banks() * self.shape.members
    }

    fn has_majority(&self) -> bool {
        2 * self.unsuspected().count_ones() > self.members.count_ones()
    }

    /// The least member whom its script has it suspect or wish for now, or else whom the rows do.
    fn next_suspect(&self) -> Option<usize> {
        let others = self.namable();
        if self.turns == self.scripted.turn && self.scripted.members & others != 0 {
            return least_of(self.scripted.members & others);
        }
        let row = self.least_row_naming(others)?;
        least_of(self.named_by(row) & others)
    }

    /// The least unsuspected row that says that its member suspects or wishes for one of these.
    fn least_row_naming(&self, members: u16) -> Option<usize> {
        let others = self.unsuspected_others();
        let mut rows = self.view.iter().copied();
        rows.find(|row| has(others, *row) && self.named_by(*row) & members != 0)
    }

    fn named_by(&self, row: usize) -> u16 {
        self.rows.seen(row, SUSPECTED) as u16
    }

    /// The least word of a column over the rows of the view.
    fn least_seen(&self, column: usize) -> u64 {
        self.view.iter().fold(u64::MAX, |least, row| {
            least.min(self.rows.seen(*row, column))
        })
    }

    fn may_receive(&self, sender: usize) -> bool {
        let k = self.counts[sender];
        k < self.most && self.rows.is_ready(sender, self.shape.head_column(k), k)
    }

    fn may_send(&self) -> bool {
        self.has_message_left() && self.is_free(self.counts[self.me])
    }

    fn may_null(&self) -> bool {
        !self.has_message_left() && self.is_behind() && self.is_free(self.counts[self.me])
    }

    /// It puts nulls only behind its last message.
    fn has_message_left(&self) -> bool {
        self.base + self.sent.len() < self.messages.len()
    }

    /// Whether it has more items of some member than it has put.
    fn is_behind(&self) -> bool {
        let own = self.counts[self.me];
        self.counts.iter().any(|count| *count > own)
    }

    /// Whether each other member has received what stood in the slot of item `k` before.
    fn is_free(&self, k: u32) -> bool {
        let Some(before) = k.checked_sub(self.shape.window as u32) else {
            return true;
        };
        let column = self.shape.recv_column(self.me);
        self.view
            .iter()
            .all(|row| *row == self.me || self.rows.seen(*row, column) >> 1 > u64::from(before))
    }

    fn may_deliver(&self) -> bool {
        let next = self.next.number as u64;
        (next < self.received || next < self.least_seen(RECEIVED)) && self.history.len() < self.room
    }

    fn may_mark(&self) -> bool {
        let holds_all = |member: &usize| self.delivered[*member] == self.totals[*member];
        !self.is_wedged()
            && self.rows.own(DONE) == 0
            && self.durable == self.history.len()
            && self.view.iter().all(holds_all)
    }

    fn is_all_done(&self) -> bool {
        !self.is_wedged() && self.view.iter().all(|row| self.rows.seen(*row, DONE) == 1)
    }

    /// The least member that it doesn't suspect: the one whose proposal it waits for.
    fn promise(&self) -> usize {
        self.unsuspected().trailing_zeros() as usize
    }

    /// The ballot that a row has accepted, plus 1; 0 where there is none.
    fn tag(&self, row: usize) -> u8 {
        self.rows.accepted(row, self.shape.leavers_column()).tag
    }

    /// The columns of the accept words.
    fn accept_columns(&self) -> impl Iterator<Item = usize> {
        let trims = self
            .view
            .iter()
            .map(|sender| self.shape.trim_column(*sender));
        iter::once(self.shape.leavers_column()).chain(trims)
    }

    fn may_vote(&self) -> bool {
        self.committed.is_none()
            && self.logged == self.history.len()
            && (self.may_propose() || self.may_accept())
    }

    /// Whether it is the one that the unsuspected members wait for, and its rows show all that they have.
    fn may_propose(&self) -> bool {
        let shows_all = |row: &usize| {
            let mut senders = self.view.iter();
            senders.all(|sender| self.rows.is_final(*row, self.shape.recv_column(*sender)))
                && self
                    .accept_columns()
                    .all(|column| usize::from(self.rows.accepted(*row, column).promise) == self.me)
        };
        self.promise() == self.me
            && usize::from(self.tag(self.me)) != self.me + 1
            && self.has_majority()
            && self.unsuspected_rows().all(|row| shows_all(&row))
    }

    /// Whether the row of the member that it waits for shows the whole of a proposal that it hasn't
    /// accepted.
    fn may_accept(&self) -> bool {
        let proposer = self.promise();
        let tag = proposer as u8 + 1;
        proposer != self.me
            && self.tag(self.me) != tag
            && self
                .accept_columns()
                .all(|column| self.rows.accepted(proposer, column).tag == tag)
    }

    /// The vote that it may log.
    fn vote(&self) -> Vote {
        let ballot = self.promise();
        Vote {
            age: 0,
            view: self.number,
            ballot: ballot as u8,
            members: self.shape.members as u8,
            value: if ballot == self.me {
                self.proposal()
            } else {
                self.shown(ballot)
            },
        }
    }

    /// The value of the highest tag in the rows of those that it doesn't suspect; where none has one, the
    /// suspects leave and those that it wishes for come, behind the items that all the others have.
    fn proposal(&self) -> Value {
        let rows = self.unsuspected_rows();
        match rows.rev().max_by_key(|row| self.tag(*row)) {
            Some(row) if self.tag(row) > 0 => self.shown(row),
            _ => {
                let mut trim = [0; MAX_MEMBERS];
                for sender in &self.view {
                    let column = self.shape.recv_column(*sender);
                    let counts = self
                        .unsuspected_rows()
                        .map(|row| self.rows.seen(row, column) >> 1);
                    trim[*sender] = counts.min().unwrap_or(0) as u32;
                }
                let leavers = self.suspects;
                Value { leavers, trim }
            }
        }
    }

    /// The value that a row shows.
    fn shown(&self, row: usize) -> Value {
        let leavers = self.rows.accepted(row, self.shape.leavers_column()).value as u16;
        let mut trim = [0; MAX_MEMBERS];
        for sender in &self.view {
            trim[*sender] = self
                .rows
                .accepted(row, self.shape.trim_column(*sender))
                .value as u32;
        }
        Value { leavers, trim }
    }

    /// Whether most of the view have accepted what it has.
    fn may_commit(&self) -> bool {
        if self.committed.is_some() {
            return false;
        }
        let own = self.tag(self.me);
        own != 0 && {
            let same = self.view.iter().filter(|row| self.tag(**row) == own);
            2 * same.count() > self.view.len()
        }
    }

    /// It accepts the value of the vote that waits.
    fn accept(&mut self) {
        if let Some(vote) = self.pending.take() {
            let tag = vote.ballot + 1;
            let leavers = u64::from(vote.value.leavers);
            self.rows.accept(self.shape.leavers_column(), tag, leavers);
            for sender in &self.view {
                let count = u64::from(vote.value.trim[*sender]);
                self.rows
                    .accept(self.shape.trim_column(*sender), tag, count);
            }
        }
    }

    /// One more is suspected or wished for: the recv words are final, and the accept words have the promise to the
    /// least member that isn't.
    fn suspect(&mut self, other: usize) {
        self.suspects |= 1 << other;
        self.rows.set_own(SUSPECTED, u64::from(self.suspects));
        let promise = self.promise() as u32;
        self.rows.promise(self.shape.leavers_column(), promise);
        for sender in &self.view {
            self.rows.finish(self.shape.recv_column(*sender));
            self.rows.promise(self.shape.trim_column(*sender), promise);
        }
    }

    fn receive(&mut self, sender: usize) {
        let head = self.shape.head_column(self.counts[sender]);
        let item = self.rows.item(sender, head);
        self.gain(sender, item);
    }

    fn send(&mut self) {
        let index = self.base + self.sent.len();
        let item = Item::Text(self.messages[index].clone());
        self.put(Sent::Index(index as u32), item);
    }

    fn put(&mut self, name: Sent, item: Item) {
        let k = self.counts[self.me];
        self.rows.put(self.shape.head_column(k), k, &item);
        self.sent.push(name);
        self.gain(self.me, item);
    }

    /// Keeps one item more of this member: its recv word and the received word follow.
    fn gain(&mut self, sender: usize, item: Item) {
        let k = self.counts[sender];
        self.counts[sender] = k + 1;
        self.items[k as usize * self.shape.members + sender] = item;
        while self.front.round < self.counts[self.view[self.front.rank]] {
            self.front.step(self.view.len());
        }
        self.rows
            .set_own(self.shape.recv_column(sender), (u64::from(k) + 1) << 1);
        self.rows.set_own(RECEIVED, self.front.number as u64);
    }

    fn deliver(&mut self) {
        if self.next.number as u64 >= self.received {
            self.received = self.least_seen(RECEIVED);
        }
        self.deliver_next();
    }

    fn deliver_next(&mut self) {
        let sender = self.view[self.next.rank];
        if let Item::Text(message) =
            &self.items[self.next.round as usize * self.shape.members + sender]
        {
            let index = self.delivered[sender];
            self.delivered[sender] = index + 1;
            self.history.push(Entry::Msg {
                sender: sender as u8,
                index,
                bytes: message.clone(),
            });
        }
        self.next.step(self.view.len());
    }

    /// It ends its view with the value that it has committed, and goes on in the next one, in which all is
    /// as at the beginning.
    #[inline(never)]
    fn finish(&mut self) {
        if let Some(value) = self.committed.take() {
            self.deliver_rest(&value.trim);
            let before = self.members;
            let members = before ^ value.leavers;
            self.history.push(Entry::View {
                age: 0,
                number: self.number + 1,
                members,
            });
            self.enter(self.number + 1, members);
            self.wishable &= !members;
            if least_of(before & members) == Some(self.me) {
                self.letterless = members & !before;
            }
        }
    }

    /// It goes on in the view of this number with these members, in which all is as at the beginning.
    fn enter(&mut self, number: u8, members: u16) {
        let roster = self.shape.members;
        self.left.push(Left {
            own: self.rows.own_words().to_vec(),
            counts: mem::replace(&mut self.counts, vec![0; roster]),
            sent: mem::replace(&mut self.sent, Vec::with_capacity(self.most as usize)),
        });
        self.rows.renew();
        self.rows.set_own(LOGGED, self.logged as u64);
        self.bank = usize::from(number) * roster * self.copy_words;
        self.own_copy = self.bank + self.me * self.copy_words;
        self.number = number;
        self.members = members;
        self.view.clear();
        self.view
            .extend((0..roster).filter(|member| has(members, *member)));
        self.suspects = 0;
        // Items beyond the counts are never read.
        self.front = Spot::FIRST;
        self.next = Spot::FIRST;
        self.received = 0;
        self.base = self.delivered[self.me] as usize;
    }

    /// Its history is the letter from now on, and it goes on in the last view of it.
    fn join(&mut self, letter: &[Entry]) {
        self.history.clear();
        self.history.extend_from_slice(letter);
        self.delivered.fill(0);
        let (mut last, mut members) = (0, 0);
        for entry in letter {
            match entry {
                Entry::View {
                    number,
                    members: of,
                    ..
                } => {
                    (last, members) = (*number, *of);
                    self.wishable &= !members;
                }
                Entry::Msg { sender, .. } => self.delivered[usize::from(*sender)] += 1,
            }
        }
        self.enter(last, members);
    }

    /// Delivers what these trims have left of the view.
    fn deliver_rest(&mut self, trim: &[u32; MAX_MEMBERS]) {
        let most = trim.iter().copied().max().unwrap_or(0);
        while self.next.round < most {
            if self.next.round < trim[self.view[self.next.rank]] {
                self.deliver_next();
            } else {
                self.next.step(self.view.len());
            }
        }
    }

    fn halt(&mut self, end: End) -> Place {
        self.end = Some(end);
        Place::Rest
    }

    /// Whether it has ended or stands before a turn.
    #[inline]
    pub fn is_between_turns(&self) -> bool {
        matches!(self.place, Place::Beat | Place::Rest)
    }
}

/// Whole rows of deeds at once, over a table that other threads share.
#[allow(dead_code)]
impl Member {
    /// Does all looks of its turn, from the first one on.
    pub fn look_rows(&mut self, table: &[AtomicU64]) {
        while let Place::Look { row, .. } = self.place {
            self.rows.look_row(row, self.copy_of(table, row));
            self.place = self.seek_look(row + 1);
        }
    }

    /// The same, and counts the looks, and those of them that saw another word than the last time.
    pub fn look_rows_counted(&mut self, table: &[AtomicU64]) -> (u64, u64) {
        let (mut looks, mut changed) = (0, 0);
        while let Place::Look { row, .. } = self.place {
            looks += self.rows.columns as u64;
            changed += self.rows.look_row_counted(row, self.copy_of(table, row));
            self.place = self.seek_look(row + 1);
        }
        (looks, changed)
    }

    /// Does all pushes of its turn, from the first one on, and counts them.
    #[inline]
    pub fn push_rows(&mut self, table: &[AtomicU64], order: Ordering) -> u64 {
        let mut pushes = 0;
        while let Place::Push { to, .. } = self.place {
            let own_row = self.bank + to * self.copy_words + self.rows.own_row;
            let words = &table[own_row..][..self.rows.columns];
            pushes += self.rows.push_row(to, words, order);
            self.place = self.seek_push(to + 1);
        }
        pushes
    }

    /// The words of a row in its own copy.
    fn copy_of<'a>(&self, table: &'a [AtomicU64], row: usize) -> &'a [AtomicU64] {
        &table[self.own_copy + row * self.rows.columns..][..self.rows.columns]
    }
}

/// Rows taken whole, over a table at which nobody else looks.
#[allow(dead_code)]
impl Member {
    /// Takes the looks of a row or the pushes to a member, where it stands at them, and counts them.
    #[inline]
    pub fn take_row(&mut self, table: &mut [u64]) -> Option<u64> {
        let columns = self.rows.columns;
        match self.place {
            Place::Look { row, .. } => {
                self.rows.copy_row(row, &table[self.own_copy + row * columns..][..columns]);
                self.place = self.seek_look(row + 1);
                Some(columns as u64)
            }
            Place::Push { to, .. } => {
                let own_row = self.bank + to * self.copy_words + self.rows.own_row;
                let pushes = self.rows.write_row(to, &mut table[own_row..][..columns]);
                self.place = self.seek_push(to + 1);
                Some(pushes)
            }
            _ => None,
        }
    }
}

fn has(mask: u16, member: usize) -> bool {
    (mask >> member) & 1 == 1
}

/// The numbers in a mask, ascending.
fn listed(mask: u16, roster: usize) -> Vec<usize> {
    (0..roster).filter(|member| has(mask, *member)).collect()
}

fn is_view(entry: &Entry) -> bool {
    matches!(entry, Entry::View { .. })
}

fn least_of(mask: u16) -> Option<usize> {
    (mask != 0).then(|| mask.trailing_zeros() as usize)
}
