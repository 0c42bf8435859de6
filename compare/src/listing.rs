//! The lines of the listing program, from the crate's answer alone.
use crate::counters;
use crate::ids::{is_compressed, is_people, kind_of, widths_refusal, wrapped, Kind};
use oracle::{Failure, Header, Item, Kind as Theirs, Reading, Stop};
use std::io::Write;

/// The lines of a tag; nothing where a listed difference applies, or may apply.
pub fn lines(tag: &[u8]) -> Option<Vec<u8>> {
    let reading = oracle::read_past(tag);
    let mut out = Vec::new();
    let header = match &reading.header {
        Ok(header) => header,
        Err(failure) if failure.number > 0 => return Some(refused(out, failure.number)),
        Err(_) => return None,
    };
    let Header { edition, size, flags, ext, .. } = header;
    let _ = writeln!(out, "tag 2.{edition} size {size} flags {flags} ext {ext}");
    let end = end(&reading, *edition, 1)?;
    for (n, item) in reading.items.iter().enumerate() {
        if matches!(item.kind, Theirs::Refused(_)) {
            break;
        }
        frame(&mut out, n, *edition, item);
    }
    match end {
        End::Quiet(frames) => {
            let _ = writeln!(out, "end {frames}");
            Some(out)
        }
        End::Refused(number) => Some(refused(out, number)),
    }
}

fn refused(mut out: Vec<u8>, number: u8) -> Vec<u8> {
    let _ = writeln!(out, "refused {number}");
    out
}

fn frame(out: &mut Vec<u8>, n: usize, edition: u8, item: &Item) {
    let _ = write!(out, "frame {n} ");
    out.extend(&item.id);
    let word = match kind_of(edition, &item.id) {
        Kind::Text => "text",
        Kind::Popularimeter => "popularimeter",
        Kind::Table => "table",
        Kind::Chapter => "chapter",
        Kind::Contents => "contents",
        Kind::Raw => "raw",
    };
    let short = if is_short(item) { "short" } else { "whole" };
    let _ = write!(out, " at {} body {} {word} {short}", item.at, item.body.len());
    if let Theirs::Popularimeter { user, rating, counter } = &item.kind {
        let _ = write!(out, " user {} rating {rating} counter {counter}", oracle::hex(user));
    }
    out.push(b'\n');
}

/// Whether the end cut the body: the crate says that it took more than was there.
pub fn is_short(item: &Item) -> bool {
    item.said > item.took
}

/// Whether both sides must take a frame for the same: no class of differences speaks of it, nor of its subframes.
fn is_plain(edition: u8, item: &Item, depth: usize) -> bool {
    if is_compressed(edition, item.flags) || is_people(&item.id) || depth > 8 {
        return false;
    }
    let kind = kind_of(edition, &item.id);
    match &item.kind {
        Theirs::Text { .. } => kind == Kind::Text || item.id == b"GRP1",
        Theirs::Popularimeter { .. } => kind == Kind::Popularimeter && !counters::is_other(&item.body),
        Theirs::Table { bits_for_bytes, bits_for_millis, .. } => {
            kind == Kind::Table && widths_refusal(*bits_for_bytes, *bits_for_millis) == 0
        }
        Theirs::Chapter { subs, .. } | Theirs::Contents { subs, .. } => {
            subs.as_ref().is_some_and(|subs| subs.iter().all(|sub| is_plain(edition, sub, depth + 1)))
        }
        Theirs::Raw | Theirs::Other(_) => kind == Kind::Raw,
        Theirs::Refused(_) => false,
    }
}

/// How both sides must end.
#[derive(Clone, Copy, Debug, PartialEq, Eq)]
pub enum End {
    /// Quietly, after so many frames.
    Quiet(usize),
    /// With this number.
    Refused(u8),
}

/// How both sides must end a walk that begins at a depth; nothing where a listed difference applies, or may apply, to a frame before.
pub fn end(reading: &Reading, edition: u8, depth: usize) -> Option<End> {
    if !reading.doubts.is_empty() {
        return None;
    }
    for item in &reading.items {
        if let Theirs::Refused(failure) = &item.kind {
            return body_refusal(edition, item, failure, depth).map(End::Refused);
        }
        if !is_plain(edition, item, depth) {
            return None;
        }
    }
    match reading.stop.as_ref()? {
        Stop::End { .. } => Some(End::Quiet(reading.items.len())),
        Stop::Refused { flags, failure, left, .. } => {
            // unpacking, which the port does not do, is refused without a number or with 5
            let unpacked = is_compressed(edition, *flags) && failure.number == 5 && *left >= 14;
            (depth <= 8 && failure.number > 0 && !unpacked).then_some(End::Refused(failure.number))
        }
        Stop::Panic { .. } | Stop::Stack { .. } => None,
    }
}

/// The number by which both sides refuse a body.
fn body_refusal(edition: u8, item: &Item, failure: &Failure, depth: usize) -> Option<u8> {
    let number = Some(failure.number).filter(|n| *n > 0)?;
    if is_compressed(edition, item.flags) || is_people(&item.id) || depth > 8 {
        return None;
    }
    match kind_of(edition, &item.id) {
        Kind::Raw => None,
        Kind::Table if edition == 2 => None,
        Kind::Chapter | Kind::Contents => match oracle::run_of(&item.id, &item.body) {
            None => Some(number),
            Some(run) => {
                let inside = oracle::read_past(&wrapped(edition, run));
                (end(&inside, edition, depth + 1) == Some(End::Refused(number))).then_some(number)
            }
        },
        _ => Some(number),
    }
}
