//! Questions to the library and its answers as bytes, for a library that runs in another process.
use crate::answers::{Change, Changed, Edit, Entry, Frame, Header, Order, Raise, Seen, Stop, Written};
use std::io::{self, Read, Write};

/// Puts numbers and bytes one after the other.
#[derive(Default)]
pub struct Put(pub Vec<u8>);

impl Put {
    fn number(&mut self, n: u64) {
        self.0.extend(n.to_le_bytes());
    }

    fn bytes(&mut self, bytes: &[u8]) {
        self.number(bytes.len() as u64);
        self.0.extend(bytes);
    }

    fn words(&mut self, words: &[u32]) {
        self.number(words.len() as u64);
        words.iter().for_each(|word| self.0.extend(word.to_le_bytes()));
    }

    fn numbers(&mut self, numbers: &[u64]) {
        numbers.iter().for_each(|n| self.number(*n));
    }
}

/// Takes them again.
pub struct Take<'a>(pub &'a [u8]);

impl<'a> Take<'a> {
    fn part(&mut self, len: usize) -> &'a [u8] {
        let (part, rest) = self.0.split_at(len);
        self.0 = rest;
        part
    }

    fn number(&mut self) -> u64 {
        u64::from_le_bytes(self.part(8).try_into().expect("eight bytes"))
    }

    fn size(&mut self) -> usize {
        self.number() as usize
    }

    fn bytes(&mut self) -> Vec<u8> {
        let len = self.size();
        self.part(len).to_vec()
    }

    fn words(&mut self) -> Vec<u32> {
        let len = self.size();
        self.part(4 * len).chunks(4).map(|word| u32::from_le_bytes(word.try_into().expect("four bytes"))).collect()
    }

    fn numbers(&mut self) -> [u64; 5] {
        [0; 5].map(|_: u64| self.number())
    }

    fn many<T>(&mut self, one: impl Fn(&mut Take<'a>) -> T) -> Vec<T> {
        let len = self.size();
        (0..len).map(|_| one(self)).collect()
    }
}

// ---- questions

/// A question: a tag, an order, a raise, or an edit.
#[derive(Clone, Debug, PartialEq, Eq)]
#[allow(missing_docs)]
pub enum Question {
    Tag(Vec<u8>),
    Order(Order),
    Raise(Raise),
    Edit(Edit<Entry>),
}

/// A question for a tag as bytes.
pub fn put_tag(tag: &[u8]) -> Vec<u8> {
    let mut out = Put::default();
    out.number(0);
    out.bytes(tag);
    out.0
}

/// An order as bytes.
pub fn put_order(order: &Order) -> Vec<u8> {
    let mut out = Put::default();
    out.number(1);
    out.numbers(&[
        order.edition.into(),
        order.mode,
        order.altered.into(),
        order.room as u64,
        order.padding,
        order.output as u64,
    ]);
    out.number(order.entries.len() as u64);
    order.entries.iter().for_each(|entry| put_entry(&mut out, entry));
    out.0
}

fn put_entry(out: &mut Put, entry: &Entry) {
    out.numbers(&[entry.kind, entry.id]);
    out.numbers(&entry.numbers);
    [&entry.name, &entry.names, &entry.rest].into_iter().for_each(|part| out.bytes(part));
    out.words(&entry.deviations);
}

/// A raise as bytes.
pub fn put_raise(raise: &Raise) -> Vec<u8> {
    let mut out = Put::default();
    out.number(2);
    out.bytes(&raise.tag);
    out.bytes(&raise.user);
    out.number(raise.amount);
    out.0
}

/// An edit as bytes.
pub fn put_edit(edit: &Edit<Entry>) -> Vec<u8> {
    let mut out = Put::default();
    out.number(3);
    out.bytes(&edit.tag);
    match &edit.change {
        Change::Replace(number, entry) => {
            out.numbers(&[0, *number]);
            put_entry(&mut out, entry);
        }
        Change::Remove(number) => out.numbers(&[1, *number]),
        Change::Append(entry) => {
            out.number(2);
            put_entry(&mut out, entry);
        }
        Change::Lift(user, amount) => {
            out.number(3);
            out.bytes(user);
            out.number(*amount);
        }
    }
    out.0
}

/// Whether a question is for a tag.
pub fn is_tag(question: &[u8]) -> bool {
    question.first() == Some(&0)
}

/// The question that bytes are.
pub fn question(bytes: &[u8]) -> Question {
    let mut from = Take(bytes);
    match from.number() {
        0 => Question::Tag(from.bytes()),
        1 => Question::Order(order(&mut from)),
        2 => Question::Raise(Raise { tag: from.bytes(), user: from.bytes(), amount: from.number() }),
        _ => Question::Edit(Edit { tag: from.bytes(), change: change(&mut from) }),
    }
}

fn change(from: &mut Take) -> Change<Entry> {
    match from.number() {
        0 => Change::Replace(from.number(), entry(from)),
        1 => Change::Remove(from.number()),
        2 => Change::Append(entry(from)),
        _ => Change::Lift(from.bytes(), from.number()),
    }
}

fn order(from: &mut Take) -> Order {
    let [edition, mode, altered, room, padding] = from.numbers();
    let output = from.size();
    let entries = from.many(entry);
    Order { edition: edition as u8, mode, altered: altered == 1, room: room as usize, entries, padding, output }
}

fn entry(from: &mut Take) -> Entry {
    Entry {
        kind: from.number(),
        id: from.number(),
        numbers: from.numbers(),
        name: from.bytes(),
        names: from.bytes(),
        rest: from.bytes(),
        deviations: from.words(),
    }
}

// ---- answers

/// What was seen, as bytes.
pub fn put_seen(seen: &Seen) -> Vec<u8> {
    let mut out = Put::default();
    match &seen.header {
        Ok(h) => out.numbers(&[0, h.edition, h.flags, h.size, h.ext]),
        Err(number) => out.numbers(&[u64::from(*number), 0, 0, 0, 0]),
    }
    match seen.stop {
        Stop::End { at } => out.numbers(&[0, at as u64]),
        Stop::Refused { at, number } => out.numbers(&[number.into(), at as u64]),
    }
    out.number(seen.frames.len() as u64);
    for frame in &seen.frames {
        let marks = u64::from(frame.short) + 2 * u64::from(frame.compressed);
        out.numbers(&[frame.at as u64, frame.took as u64, frame.id, marks, frame.kind]);
        out.numbers(&frame.numbers);
        [&frame.body, &frame.name, &frame.names, &frame.rest].into_iter().for_each(|part| out.bytes(part));
        out.words(&frame.deviations);
    }
    out.0
}

/// What was seen, from bytes.
pub fn seen(bytes: &[u8]) -> Seen {
    let mut from = Take(bytes);
    let [refused, edition, flags, size, ext] = from.numbers();
    let header = if refused == 0 { Ok(Header { edition, flags, size, ext }) } else { Err(refused as u32) };
    let number = from.number() as u32;
    let at = from.size();
    let stop = if number == 0 { Stop::End { at } } else { Stop::Refused { at, number } };
    Seen { header, frames: from.many(frame), stop }
}

fn frame(from: &mut Take) -> Frame {
    let [at, took, id, marks, kind] = from.numbers();
    Frame {
        at: at as usize,
        took: took as usize,
        id,
        short: marks & 1 != 0,
        compressed: marks & 2 != 0,
        kind,
        numbers: from.numbers(),
        body: from.bytes(),
        name: from.bytes(),
        names: from.bytes(),
        rest: from.bytes(),
        deviations: from.words(),
    }
}

/// What was written, as bytes.
pub fn put_written(written: &Written) -> Vec<u8> {
    let mut out = Put::default();
    out.numbers(&[written.finished.into(), written.clean.into()]);
    out.bytes(&written.frames);
    out.bytes(&written.tag);
    out.number(written.added.len() as u64);
    written.added.iter().for_each(|(number, count)| out.numbers(&[(*number).into(), *count as u64]));
    out.0
}

/// What was written, from bytes.
pub fn written(bytes: &[u8]) -> Written {
    let mut from = Take(bytes);
    Written {
        finished: from.number() as u32,
        clean: from.number() == 1,
        frames: from.bytes(),
        tag: from.bytes(),
        added: from.many(|from| (from.number() as u32, from.size())),
    }
}

/// What was raised or edited, as bytes.
pub fn put_changed(changed: &Changed) -> Vec<u8> {
    let mut out = Put::default();
    out.numbers(&[changed.number.into(), changed.counter, changed.clean.into(), changed.roomless.into()]);
    out.bytes(&changed.tag);
    out.0
}

/// What was raised or edited, from bytes.
pub fn changed(bytes: &[u8]) -> Changed {
    let mut from = Take(bytes);
    Changed {
        number: from.number() as u32,
        counter: from.number(),
        clean: from.number() == 1,
        roomless: from.number() as u32,
        tag: from.bytes(),
    }
}

// ---- batches: so many items, each with its length before it; read as a whole before anything is answered

/// Sends a batch.
pub fn send(to: &mut impl Write, items: &[Vec<u8>]) -> io::Result<()> {
    let mut out = Put::default();
    items.iter().for_each(|item| out.bytes(item));
    to.write_all(&(out.0.len() as u64).to_le_bytes())?;
    to.write_all(&out.0)?;
    to.flush()
}

/// Takes a batch; nothing where there is none any more.
pub fn receive(from: &mut impl Read) -> io::Result<Option<Vec<Vec<u8>>>> {
    let mut len = [0; 8];
    match from.read_exact(&mut len) {
        Err(error) if error.kind() == io::ErrorKind::UnexpectedEof => return Ok(None),
        answer => answer?,
    }
    let mut bytes = vec![0; u64::from_le_bytes(len) as usize];
    from.read_exact(&mut bytes)?;
    let mut take = Take(&bytes);
    let mut items = Vec::new();
    while !take.0.is_empty() {
        items.push(take.bytes());
    }
    Ok(Some(items))
}
