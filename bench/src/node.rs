//! One node: rows of stops over a store, and what is remade from them at a restart.

use std::collections::{BTreeSet, HashSet, VecDeque};
use std::marker::PhantomData;

use crate::card::{Cut, PAGE, Page, Store};
use crate::computation::{Computation, Verdict};

pub const STOPS: usize = 32;
pub const LAST_TIME: u32 = 4_000_000_000;

#[derive(Clone, Copy, PartialEq, Eq, Hash, Debug)]
pub struct Name {
    pub sender: u16,
    pub serial: u32,
    pub time: u32,
}

#[derive(Clone, Copy, PartialEq, Eq, Debug)]
pub struct Record {
    pub name: Name,
    pub stop: u16,
    pub amount: u16,
}

#[derive(Clone, Copy, PartialEq, Eq, Debug)]
pub struct Production {
    pub serial: u32,
    pub time: u32,
    pub amount: u16,
}

#[derive(Clone, Copy, PartialEq, Eq, Debug)]
pub enum Answer {
    Done,
    OutOfRange,
    Off,
    Late,
    Seen,
    Early,
    Over,
    Full,
    NoRoom,
    Cut(Cut),
    Nothing,
    LinkFull,
    NoMessage,
    NotOldest,
}

impl Answer {
    pub fn number(self) -> u8 {
        match self {
            Answer::Done => 0,
            Answer::OutOfRange => 1,
            Answer::Off => 2,
            Answer::Late => 3,
            Answer::Seen => 4,
            Answer::Early => 5,
            Answer::Over => 6,
            Answer::Full => 7,
            Answer::NoRoom => 8,
            Answer::Cut(_) => 9,
            Answer::Nothing => 10,
            Answer::LinkFull => 11,
            Answer::NoMessage => 12,
            Answer::NotOldest => 13,
        }
    }
}

/// A stop's row, decoded.
struct Row<S> {
    next: u32,
    state: S,
    pending: Vec<Production>,
    names: Vec<Name>,
}

fn u32_at(bytes: &[u8], at: usize) -> u32 {
    u32::from_le_bytes([bytes[at], bytes[at + 1], bytes[at + 2], bytes[at + 3]])
}

impl<S> Row<S> {
    fn decode<C: Computation<State = S>>(bytes: &Page) -> Row<S> {
        let production = |i: usize| {
            let at = 40 + 12 * i;
            Production { serial: u32_at(bytes, at), time: u32_at(bytes, at + 4), amount: u32_at(bytes, at + 8) as u16 }
        };
        let name = |i: usize| {
            let at = 88 + 10 * i;
            Name { sender: u16::from_le_bytes([bytes[at], bytes[at + 1]]), serial: u32_at(bytes, at + 2), time: u32_at(bytes, at + 6) }
        };
        Row {
            next: u32_at(bytes, 0),
            state: C::load(&bytes[8..40]),
            pending: (0..usize::from(bytes[4])).map(production).collect(),
            names: (0..usize::from(bytes[5])).map(name).collect(),
        }
    }

    fn encode<C: Computation<State = S>>(&self) -> Page {
        let mut bytes = [0; PAGE];
        bytes[0..4].copy_from_slice(&self.next.to_le_bytes());
        bytes[4] = self.pending.len() as u8;
        bytes[5] = self.names.len() as u8;
        C::store(&self.state, &mut bytes[8..40]);
        for (i, p) in self.pending.iter().enumerate() {
            let at = 40 + 12 * i;
            bytes[at..at + 4].copy_from_slice(&p.serial.to_le_bytes());
            bytes[at + 4..at + 8].copy_from_slice(&p.time.to_le_bytes());
            bytes[at + 8..at + 12].copy_from_slice(&u32::from(p.amount).to_le_bytes());
        }
        for (i, n) in self.names.iter().enumerate() {
            let at = 88 + 10 * i;
            bytes[at..at + 2].copy_from_slice(&n.sender.to_le_bytes());
            bytes[at + 2..at + 6].copy_from_slice(&n.serial.to_le_bytes());
            bytes[at + 6..at + 10].copy_from_slice(&n.time.to_le_bytes());
        }
        bytes
    }
}

pub struct Node<S, C> {
    store: S,
    names: HashSet<(u16, Name)>,
    timers: BTreeSet<(u32, u16)>,
    panel: BTreeSet<(std::cmp::Reverse<u16>, u16)>,
    queue: VecDeque<u16>,
    computation: PhantomData<C>,
}

impl<S: Store, C: Computation> Node<S, C> {
    pub fn new(store: S) -> Self {
        Node {
            store,
            names: HashSet::new(),
            timers: BTreeSet::new(),
            panel: BTreeSet::new(),
            queue: VecDeque::new(),
            computation: PhantomData,
        }
    }

    pub fn is_on(&self) -> bool {
        self.store.is_on()
    }

    pub fn watermark(&self) -> u32 {
        u32_at(self.store.row(STOPS), 0)
    }

    fn row(&self, stop: u16) -> Row<C::State> {
        Row::decode::<C>(self.store.row(usize::from(stop)))
    }

    /// Commits a row, and brings what is kept beside the rows up to date.
    fn commit(&mut self, stop: u16, old: &Row<C::State>, new: &Row<C::State>) -> Answer {
        if let Err(cut) = self.store.commit(usize::from(stop), &new.encode::<C>()) {
            return Answer::Cut(cut);
        }
        for name in &old.names {
            self.names.remove(&(stop, *name));
        }
        for name in &new.names {
            self.names.insert((stop, *name));
        }
        if let Some(due) = C::due(&old.state) {
            self.timers.remove(&(due, stop));
        }
        if let Some(due) = C::due(&new.state) {
            self.timers.insert((due, stop));
        }
        if let Some(p) = old.pending.first() {
            self.panel.remove(&(std::cmp::Reverse(p.amount), stop));
        }
        if let Some(p) = new.pending.first() {
            self.panel.insert((std::cmp::Reverse(p.amount), stop));
        }
        match (old.pending.is_empty(), new.pending.is_empty()) {
            (true, false) => self.queue.push_back(stop),
            (false, true) => self.queue.retain(|s| *s != stop),
            _ => {}
        }
        Answer::Done
    }

    fn commit_watermark(&mut self, time: u32) -> Answer {
        let mut bytes = [0; PAGE];
        bytes[0..4].copy_from_slice(&time.to_le_bytes());
        match self.store.commit(STOPS, &bytes) {
            Ok(()) => Answer::Done,
            Err(cut) => Answer::Cut(cut),
        }
    }

    pub fn hand_in(&mut self, record: Record) -> Answer {
        let Record { name, stop, amount } = record;
        if usize::from(stop) >= STOPS || name.time > LAST_TIME || amount == 0 {
            return Answer::OutOfRange;
        }
        if !self.is_on() {
            return Answer::Off;
        }
        let w = self.watermark();
        let old = self.row(stop);
        if name.time < w.max(C::mark(&old.state)) {
            return Answer::Late;
        }
        if self.names.contains(&(stop, name)) {
            return Answer::Seen;
        }
        match C::verdict(&old.state, w, name.time, amount) {
            Verdict::Early => return Answer::Early,
            Verdict::Over => return Answer::Over,
            Verdict::Fine => {}
        }
        let mut state = old.state;
        let emission = C::take(&mut state, w, name.time, amount);
        let floor = w.max(C::mark(&state));
        let mut names: Vec<Name> = old.names.iter().copied().filter(|n| n.time >= floor).collect();
        if names.len() == 40 {
            return Answer::Full;
        }
        names.push(name);
        let mut new = Row { next: old.next, state, pending: old.pending.clone(), names };
        if let Some((time, amount)) = emission {
            if old.pending.len() == 4 {
                return Answer::NoRoom;
            }
            if old.next == u32::MAX {
                return Answer::Over;
            }
            new.pending.push(Production { serial: old.next, time, amount });
            new.next += 1;
        }
        self.commit(stop, &old, &new)
    }

    pub fn advance(&mut self, time: u32) -> Answer {
        if time > LAST_TIME {
            return Answer::OutOfRange;
        }
        if !self.is_on() {
            return Answer::Off;
        }
        self.raise_watermark(time)
    }

    pub fn raise_watermark(&mut self, time: u32) -> Answer {
        if time <= self.watermark() {
            return Answer::Nothing;
        }
        self.commit_watermark(time)
    }

    pub fn fire(&mut self) -> Answer {
        if !self.is_on() {
            return Answer::Off;
        }
        let w = self.watermark();
        let Some(&(_, stop)) = self.timers.first().filter(|(due, _)| *due <= w) else {
            return Answer::Nothing;
        };
        let old = self.row(stop);
        if old.pending.len() == 4 {
            return Answer::NoRoom;
        }
        if old.next == u32::MAX {
            return Answer::Over;
        }
        let mut state = old.state;
        let emission = C::fire(&mut state);
        let floor = w.max(C::mark(&state));
        let names = old.names.iter().copied().filter(|n| n.time >= floor).collect();
        let mut new = Row { next: old.next, state, pending: old.pending.clone(), names };
        if let Some((time, amount)) = emission {
            new.pending.push(Production { serial: old.next, time, amount });
            new.next += 1;
        }
        self.commit(stop, &old, &new)
    }

    /// Clears a stop's oldest pending production if it has that serial.
    pub fn clear(&mut self, stop: u16, serial: u32) -> Answer {
        if !self.is_on() {
            return Answer::Off;
        }
        let old = self.row(stop);
        if old.pending.first().is_none_or(|p| p.serial != serial) {
            return Answer::NotOldest;
        }
        let mut new = self.row(stop);
        new.pending.remove(0);
        self.commit(stop, &old, &new)
    }

    pub fn restart(&mut self, left: u32, tear: u8, junk: &Page) -> Answer {
        if let Err(cut) = self.store.restart(left, tear, junk) {
            return Answer::Cut(cut);
        }
        self.names.clear();
        self.timers.clear();
        self.panel.clear();
        self.queue.clear();
        for stop in 0..STOPS as u16 {
            let row = self.row(stop);
            self.names.extend(row.names.iter().map(|n| (stop, *n)));
            self.timers.extend(C::due(&row.state).map(|due| (due, stop)));
            if let Some(p) = row.pending.first() {
                self.panel.insert((std::cmp::Reverse(p.amount), stop));
                self.queue.push_back(stop);
            }
        }
        Answer::Done
    }

    /// The stop whose turn it is to send.
    pub fn queue_head(&self) -> Option<u16> {
        self.queue.front().copied()
    }

    pub fn turn(&mut self) {
        if let Some(stop) = self.queue.pop_front() {
            self.queue.push_back(stop);
        }
    }

    pub fn oldest(&self, stop: u16) -> Option<Production> {
        self.row(stop).pending.first().copied()
    }

    /// The stop whose oldest pending production has the greatest amount.
    pub fn greatest(&self) -> Option<u16> {
        self.panel.first().map(|(_, stop)| *stop)
    }

    pub fn low_watermark(&self) -> u32 {
        let mut low = self.watermark();
        for stop in 0..STOPS as u16 {
            let row = self.row(stop);
            for p in &row.pending {
                low = low.min(p.time);
            }
            if let Some(due) = C::due(&row.state) {
                low = low.min(due);
            }
        }
        low
    }

    pub fn weight(&self, stop: u16) -> u64 {
        C::weight(&self.row(stop).state)
    }

    pub fn amount_pending(&self, stop: u16) -> u64 {
        self.row(stop).pending.iter().map(|p| u64::from(p.amount)).sum()
    }
}
