//! How fast the library is through its C interface, beside plain Rust that does the same over the same bytes.
//!
//!     cargo bench
//!
//! Every time is the best of several runs. What is compared is first checked to answer the same. The ratios are what
//! counts: above 1.00 the library takes longer. Under an emulator times say nothing.

use std::ffi::{c_int, c_void};
use std::hint::black_box;
use std::time::Instant;
use streamvault::{calls, sys::*, Content, Encoding, Version, Writer};

const TAGS: usize = 20_000;
const MEGABYTE: usize = 1 << 20;
const RUNS: usize = 9;

fn main() {
    if std::env::var_os("STREAMVAULT_RUNNER").is_some() {
        println!("under an emulator: these times say nothing");
    }
    for version in [Version::Id3v23, Version::Id3v24] {
        small_tags(version);
        raising(version);
        editing(version);
    }
    moving();
    raw_bodies();
    for (name, bytes) in
        [("clean", clean()), ("random", random()), ("FF-dense", dense()), ("FF-dense at random", dense_at_random())]
    {
        resynchronising(name, &bytes);
        unsynchronising(name, &bytes);
        adding(name, &bytes);
    }
}

/// The best time of several runs, in nanoseconds.
fn best<T>(mut run: impl FnMut() -> T) -> f64 {
    best_on(|| (), |()| run())
}

/// The best time of several runs, each on something that is made ready before it and not timed.
fn best_on<S, T>(mut ready: impl FnMut() -> S, mut run: impl FnMut(&mut S) -> T) -> f64 {
    let times = (0..RUNS).map(|_| {
        let mut state = ready();
        let start = Instant::now();
        black_box(run(black_box(&mut state)));
        start.elapsed().as_secs_f64() * 1e9
    });
    times.fold(f64::INFINITY, f64::min)
}

// ---- many small tags

/// As a box leaves it: some texts, a popularimeter, a private frame.
fn small_tag(version: Version, counter: u64) -> Vec<u8> {
    let mut writer = Writer::new(version);
    let text = |text| Content::Text { encoding: Encoding::Latin1, text };
    writer.add(b"TIT2", &text(&b"A song of some length"[..])).unwrap();
    writer.add(b"TPE1", &text(b"Somebody")).unwrap();
    writer.add(b"POPM", &Content::Popularimeter { user: b"room 7", rating: 3, counter }).unwrap();
    writer.add(b"PRIV", &Content::Raw { body: &[7; 200] }).unwrap();
    writer.finish(64).unwrap()
}

fn small_tags(version: Version) {
    let tags: Vec<_> = (0..TAGS).map(|i| small_tag(version, i as u64 * 977)).collect();
    let (steps, sum) = library_walk(&tags);
    assert_eq!((steps, sum), plain_walk(&tags));
    assert_eq!((steps, sum), library_meter(&tags));
    let library = best(|| library_walk(black_box(&tags)));
    let meter = best(|| library_meter(black_box(&tags)));
    let plain = best(|| plain_walk(black_box(&tags)));
    println!("{TAGS} small tags, {version}, open and step:");
    println!("  {:.1} ns for a step", library / steps as f64);
    per_tag(library, plain);
    println!("{TAGS} small tags, {version}, by the meter:");
    println!("  {:.1} ns for a tag", meter / TAGS as f64);
    per_tag(meter, plain);
}

fn per_tag(library: f64, plain: f64) {
    println!("  {:.0} tags in a second", TAGS as f64 / (library / 1e9));
    println!("  {:.2} times a plain walk in Rust", library / plain);
}

/// Steps, those that answer the end among them, and the sum of all counters.
fn library_walk(tags: &[Vec<u8>]) -> (u64, u64) {
    let (mut reader, mut record) = ([0; SV_READER_WORDS], [0; SV_RECORD_WORDS]);
    let (mut steps, mut sum) = (0, 0);
    for tag in tags {
        let mut answer = calls::open(tag, &mut [], &mut reader);
        while answer == 0 {
            answer = calls::step(tag, &mut [], &mut reader, &mut record);
            steps += 1;
            if answer == 0 && record[SV_RECORD_KIND] == SV_KIND_POPULARIMETER {
                sum += record[SV_POPULARIMETER_COUNTER];
            }
        }
    }
    (steps, sum)
}

/// The same by the meter.
fn library_meter(tags: &[Vec<u8>]) -> (u64, u64) {
    let (mut meter, mut metered) = ([0; SV_METER_WORDS], [0; SV_METERED_WORDS]);
    let (mut steps, mut sum) = (0, 0);
    for tag in tags {
        let mut answer = calls::meter_open(tag, &mut [], &mut meter);
        while answer == 0 {
            answer = calls::meter_next(tag, &mut [], &mut meter, &mut metered);
            if answer == 0 {
                sum += metered[SV_METERED_COUNTER];
            }
        }
        steps += meter[SV_METER_FRAMES] + 1;
    }
    (steps, sum)
}

/// The same by hand: frame headers and popularimeters, nothing of other bodies.
fn plain_walk(tags: &[Vec<u8>]) -> (u64, u64) {
    let (mut steps, mut sum) = (0, 0);
    for tag in tags {
        let Some(mut rest) = plain_open(tag) else { continue };
        loop {
            steps += 1;
            let Some((id, body, next)) = plain_frame(tag[3], rest) else { break };
            if id == b"POPM" {
                sum += plain_counter(body).unwrap_or(0);
            }
            rest = next;
        }
    }
    (steps, sum)
}

fn plain_open(tag: &[u8]) -> Option<&[u8]> {
    if tag.len() < 10 || !tag.starts_with(b"ID3") || !(3..=4).contains(&tag[3]) || tag[5] != 0 {
        return None;
    }
    let end = (10 + synchsafe(&tag[6..10])).min(tag.len());
    Some(&tag[10..end])
}

fn synchsafe(bytes: &[u8]) -> usize {
    bytes.iter().fold(0, |n, byte| n << 7 | usize::from(*byte))
}

fn plain_frame(edition: u8, rest: &[u8]) -> Option<(&[u8], &[u8], &[u8])> {
    if rest.len() < 10 || rest[0] == 0 || std::str::from_utf8(&rest[..4]).is_err() || rest[9] != 0 {
        return None;
    }
    let plain = u32::from_be_bytes(rest[4..8].try_into().ok()?) as usize;
    let size = if edition == 3 { plain } else { synchsafe(&rest[4..8]) };
    let behind = 10 + size.min(rest.len() - 10);
    Some((&rest[..4], &rest[10..behind], &rest[behind..]))
}

fn plain_counter(body: &[u8]) -> Option<u64> {
    let zero = body.iter().position(|byte| *byte == 0)?;
    let counter = body.get(zero + 2..)?;
    let zeros = counter.iter().take_while(|byte| **byte == 0).count();
    let counter = &counter[zeros..];
    (counter.len() <= 8).then(|| counter.iter().fold(0, |n, byte| n << 8 | u64::from(*byte)))
}

// ---- a counter raised in place, beside reading the same tags

fn raising(version: Version) {
    // counters of six bytes, which stay so
    let mut tags: Vec<_> = (0..TAGS).map(|i| small_tag(version, (1 << 40) + i as u64 * 977)).collect();
    let (_, sum) = library_walk(&tags);
    assert_eq!(library_raise(&mut tags), sum + TAGS as u64);
    assert_eq!(library_walk(&tags).1, sum + TAGS as u64);
    let raise = best(|| library_raise(black_box(&mut tags)));
    let walk = best(|| library_walk(black_box(&tags)));
    let meter = best(|| library_meter(black_box(&tags)));
    println!("{TAGS} small tags, {version}, raised by 1:");
    println!("  {:.1} ns for a tag", raise / TAGS as f64);
    println!("  {:.2} times open and step to the end, where at most 2.00 is wanted", raise / walk);
    println!("  {:.2} times the meter to the end", raise / meter);
}

/// The sum of all counters, each raised by 1.
fn library_raise(tags: &mut [Vec<u8>]) -> u64 {
    let mut counter = [0; SV_COUNTER_WORDS];
    let raised = tags.iter_mut().map(|tag| {
        assert_eq!(calls::raise(tag, b"room 7", 1, &mut counter), 0);
        counter[0]
    });
    raised.sum()
}

// ---- one frame changed in place, beside reading and raising the same tags

/// The words of a record to be written, with all else 0.
fn words(kind: u64, id: &[u8; 4], counter: u64) -> [u64; SV_RECORD_WORDS] {
    let mut record = [0; SV_RECORD_WORDS];
    (record[SV_RECORD_KIND], record[SV_RECORD_ID]) = (kind, u64::from(u32::from_be_bytes(*id)));
    if kind == SV_KIND_POPULARIMETER {
        record[SV_POPULARIMETER_COUNTER] = counter;
    }
    record
}

fn given<'a>(record: &'a [u64], name: &'a [u8], rest: &'a [u8]) -> calls::Given<'a> {
    calls::Given { record, name, names: &[], rest, deviations: &[] }
}

/// The least counter of so many bytes.
fn least(bytes: u32) -> u64 {
    1 << (8 * (bytes - 1))
}

fn lift(tag: &mut [u8], amount: u64) -> u32 {
    calls::lift(tag, b"room 7", amount, &mut [0; SV_COUNTER_WORDS])
}

/// Puts a popularimeter with this counter in the place of a frame.
fn recount(tag: &mut [u8], number: u64, counter: u64) -> u32 {
    let record = words(SV_KIND_POPULARIMETER, b"POPM", counter);
    calls::replace(tag, number, given(&record, b"room 7", &[]))
}

fn append(tag: &mut [u8]) -> u32 {
    let record = words(SV_KIND_TEXT, b"TALB", 0);
    calls::append(tag, given(&record, &[], b"An album"))
}

/// What is done to a tag, and the frames and the counter that it then has.
type Edit = (&'static str, fn(&mut [u8]) -> u32, u64, u64);

fn editing(version: Version) {
    // counters of six bytes; the popularimeter is number 2
    let counter = least(6);
    let tags = vec![small_tag(version, counter); TAGS];
    let edits: [Edit; 7] = [
        ("lifted in the counter's bytes", |tag| lift(tag, 1), 4, counter + 1),
        ("lifted to one byte more", |tag| lift(tag, least(7)), 4, counter + least(7)),
        ("a frame replaced by one as long", |tag| recount(tag, 2, least(6) + 1), 4, counter + 1),
        ("a frame replaced by one a byte longer", |tag| recount(tag, 2, least(7)), 4, least(7)),
        ("a frame replaced by one a byte shorter", |tag| recount(tag, 2, least(5)), 4, least(5)),
        ("a frame removed", |tag| calls::remove(tag, 2), 3, 0),
        ("a frame appended", append, 5, counter),
    ];
    let walk = best(|| library_walk(black_box(&tags)));
    let raise = best_on(|| tags.clone(), |tags| library_raise(tags));
    for (what, edit, frames, counter) in edits {
        let all = |tags: &mut Vec<Vec<u8>>| tags.iter_mut().for_each(|tag| assert_eq!(edit(tag), 0));
        let mut edited = tags.clone();
        all(&mut edited);
        let many = TAGS as u64;
        assert_eq!(library_walk(&edited), ((frames + 1) * many, counter * many), "{what}");
        let time = best_on(|| tags.clone(), all);
        println!("{TAGS} small tags, {version}, {what}:");
        println!("  {:.1} ns for a tag", time / TAGS as f64);
        println!("  {:.2} times open and step to the end", time / walk);
        println!("  {:.2} times a raise", time / raise);
    }
}

/// A frame of 1 MiB after the one that is changed is moved, or is removed, so that as many bytes are cleared.
fn moving() {
    let mut writer = Writer::new(Version::Id3v24);
    writer.add(b"POPM", &Content::Popularimeter { user: &b"room 7"[..], rating: 3, counter: least(6) }).unwrap();
    writer.add(b"PRIV", &Content::Raw { body: &clean() }).unwrap();
    let tag = writer.finish(64).unwrap();
    // headers of ten bytes; the popularimeter's body has 14
    let (from, to) = (10 + 24, tag.len() - 64);
    type Bytes = fn(&mut [u8], usize, usize);
    let up: Bytes = |bytes, from, to| bytes.copy_within(from..to, from + 1);
    let down: Bytes = |bytes, from, to| bytes.copy_within(from..to, from - 1);
    let to_front: Bytes = |bytes, from, to| bytes.copy_within(from..to, 10);
    let zeros: Bytes = |bytes, from, to| bytes[from..to].fill(0);
    let edits: [(Edit, Bytes, &str); 4] = [
        (("moved up by one byte", |tag| recount(tag, 0, least(7)), 2, least(7)), up, "copy_within"),
        (("moved down by one byte", |tag| recount(tag, 0, least(5)), 2, least(5)), down, "copy_within"),
        (("moved down by a removed frame", |tag| calls::remove(tag, 0), 1, 0), to_front, "copy_within"),
        (("cleared", |tag| calls::remove(tag, 1), 1, least(6)), zeros, "fill"),
    ];
    for ((what, edit, frames, counter), plain, name) in edits {
        let mut edited = tag.clone();
        assert_eq!(edit(&mut edited), 0);
        assert_eq!(library_walk(&[edited]), (frames + 1, counter), "{what}");
        let library = best_on(|| tag.clone(), |tag| edit(tag));
        let plain = best_on(|| tag.clone(), |tag| plain(tag, from, to));
        println!("1 MiB in a tag, {what}:");
        println!("  {:.3} ns for a byte", library / (to - from) as f64);
        println!("  {:.2} times {name} of as many bytes", library / plain);
    }
}

// ---- a raw body is not looked at

fn raw_bodies() {
    let tag = |len| {
        let mut writer = Writer::new(Version::Id3v24);
        writer.add(b"PRIV", &Content::Raw { body: vec![7; len] }).unwrap();
        writer.finish(0).unwrap()
    };
    let time = |tag: Vec<u8>| {
        let tags = vec![tag; 1];
        best(|| (0..10_000).map(|_| library_walk(black_box(&tags)).0).sum::<u64>())
    };
    let (empty, large) = (time(tag(0)), time(tag(MEGABYTE)));
    println!("a raw body of 1 MiB, opened and stepped through:");
    println!("  {:.2} times an empty one", large / empty);
}

// ---- resynchronising and unsynchronising

fn clean() -> Vec<u8> {
    (0..MEGABYTE).map(|i| (i % 251) as u8).collect()
}

/// Every byte equally often, the same each time.
fn random() -> Vec<u8> {
    let mut state = 1_u64;
    let mut next = || {
        state = state.wrapping_mul(6_364_136_223_846_793_005).wrapping_add(1_442_695_040_888_963_407);
        (state >> 56) as u8
    };
    (0..MEGABYTE).map(|_| next()).collect()
}

/// The same four bytes over and over: no branch is ever guessed wrongly.
fn dense() -> Vec<u8> {
    [0xFF, 0xE0, 0xFF, 0x00].repeat(MEGABYTE / 4)
}

/// Half of the bytes FF, a quarter 00, an eighth E3, the others any.
fn dense_at_random() -> Vec<u8> {
    let choose = |byte: u8| match byte >> 5 {
        0..=3 => 0xFF,
        4 | 5 => 0x00,
        6 => 0xE3,
        _ => byte,
    };
    random().into_iter().map(choose).collect()
}

/// Opens an unsynchronised 2.3 tag of 1 MiB, which resynchronises all of it.
fn resynchronising(name: &str, bytes: &[u8]) {
    let mut stored = vec![0; 2 * bytes.len()];
    let len = unsync_plain(bytes, &mut stored);
    stored.truncate(len);
    let n = stored.len();
    let mut tag = b"ID3\x03\0\x80".to_vec();
    tag.extend([n >> 21, n >> 14, n >> 7, n].map(|byte| byte as u8 & 0x7F));
    tag.extend(&stored);
    let (mut work, mut other) = (vec![0; n], vec![0; n]);
    let mut reader = [0; SV_READER_WORDS];
    assert_eq!(calls::open(&tag, &mut work, &mut reader), 0);
    assert_eq!((resync_plain(&stored, &mut other), &other[..bytes.len()]), (bytes.len(), bytes));
    assert_eq!((resync_by_search(&stored, &mut other), &other[..bytes.len()]), (bytes.len(), bytes));
    assert_eq!((reader[SV_READER_END] as usize, &work[..bytes.len()]), (bytes.len(), bytes));
    let library = best(|| calls::open(black_box(&tag), &mut work, &mut reader));
    let plain = best(|| resync_plain(black_box(&stored), &mut other));
    let search = best(|| resync_by_search(black_box(&stored), &mut other));
    compared("resynchronising", name, n, [library, plain, search]);
}

/// Finishes a 2.3 tag of 1 MiB in standard mode, which unsynchronises all of it. What the frames are is not looked at.
fn unsynchronising(name: &str, bytes: &[u8]) {
    let writer = [3, SV_MODE_STANDARD, 0, bytes.len() as u64];
    let (mut output, mut other) = (vec![0; 10 + 2 * bytes.len()], vec![0; 2 * bytes.len()]);
    let mut count = [0];
    assert_eq!(calls::finish(0, bytes, &mut output, &writer, &mut count), 0);
    let len = unsync_plain(bytes, &mut other);
    assert_eq!((count[0] as usize, &output[10..10 + len]), (10 + len, &other[..len]));
    assert_eq!((unsync_by_search(bytes, &mut other), &output[10..10 + len]), (len, &other[..len]));
    let library = best(|| calls::finish(0, black_box(bytes), &mut output, &writer, &mut count));
    let plain = best(|| unsync_plain(black_box(bytes), &mut other));
    let search = best(|| unsync_by_search(black_box(bytes), &mut other));
    compared("unsynchronising", name, bytes.len(), [library, plain, search]);
}

/// Adds a 2.4 frame with a raw body of 1 MiB in standard mode, which measures the body and unsynchronises it.
fn adding(name: &str, bytes: &[u8]) {
    let record = words(SV_KIND_RAW, b"PRIV", 0);
    let given = given(&record, &[], black_box(bytes));
    let (mut buffer, mut other) = (vec![0; 10 + 2 * bytes.len()], vec![0; 2 * bytes.len()]);
    let mut count = [0];
    let mut add = || calls::add(given, &mut buffer, &mut [4, SV_MODE_STANDARD, 0, 0], &mut count);
    assert_eq!(add(), 0);
    let library = best(add);
    let len = unsync_plain(bytes, &mut other);
    assert_eq!((count[0] as usize, &buffer[10..10 + len]), (10 + len, &other[..len]));
    let plain = best(|| unsync_plain(black_box(bytes), &mut other));
    let search = best(|| unsync_by_search(black_box(bytes), &mut other));
    compared("adding", name, bytes.len(), [library, plain, search]);
}

fn compared(what: &str, name: &str, bytes: usize, [library, plain, search]: [f64; 3]) {
    println!("{what} 1 MiB, {name}:");
    println!("  {:.3} ns for a byte", library / bytes as f64);
    println!("  {:.2} times a byte loop in Rust", library / plain);
    println!("  {:.2} times memchr and copy_from_slice", library / search);
}

fn resync_plain(from: &[u8], to: &mut [u8]) -> usize {
    let (mut len, mut last) = (0, 0);
    for &byte in from {
        if !(last == 0xFF && byte == 0) {
            to[len] = byte;
            len += 1;
        }
        last = byte;
    }
    len
}

fn unsync_plain(from: &[u8], to: &mut [u8]) -> usize {
    let (mut len, mut last) = (0, 0);
    for &byte in from {
        if last == 0xFF && (byte == 0 || byte >= 0xE0) {
            to[len] = 0;
            len += 1;
        }
        to[len] = byte;
        len += 1;
        last = byte;
    }
    len
}

extern "C" {
    fn memchr(from: *const c_void, byte: c_int, len: usize) -> *const c_void;
}

/// How many bytes there are up to and with the first FF, or all.
fn up_to_ff(bytes: &[u8]) -> usize {
    // SAFETY: pointer and length are those of a slice.
    let found = unsafe { memchr(bytes.as_ptr().cast(), 0xFF, bytes.len()) };
    if found.is_null() {
        bytes.len()
    } else {
        found as usize - bytes.as_ptr() as usize + 1
    }
}

fn resync_by_search(mut from: &[u8], to: &mut [u8]) -> usize {
    let mut len = 0;
    while !from.is_empty() {
        let (part, rest) = from.split_at(up_to_ff(from));
        to[len..len + part.len()].copy_from_slice(part);
        len += part.len();
        let drops = part.last() == Some(&0xFF) && rest.first() == Some(&0);
        from = if drops { &rest[1..] } else { rest };
    }
    len
}

fn unsync_by_search(mut from: &[u8], to: &mut [u8]) -> usize {
    let mut len = 0;
    while !from.is_empty() {
        let (part, rest) = from.split_at(up_to_ff(from));
        to[len..len + part.len()].copy_from_slice(part);
        len += part.len();
        if part.last() == Some(&0xFF) && rest.first().is_some_and(|next| *next == 0 || *next >= 0xE0) {
            to[len] = 0;
            len += 1;
        }
        from = rest;
    }
    len
}
