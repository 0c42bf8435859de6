//! Compares the new library with the crate id3 1.17.2, both linked into this program.
//!
//!     compare [--readings N] [--writings N] [--raises N] [--edits N] [--seed S] [--short BYTES] [--cuts N] [--threads N]
//!     compare read HEX                  both answers to a tag
//!     compare write LIST                the verdict on a list of records, in the oracle's form
//!     compare raise HEX USER AMOUNT     the verdict on a raise, the user in hex
//!     compare edit HEX CHANGE           the verdict on an edit: `replace NUMBER LIST`, `remove NUMBER`, `append LIST` or
//!                                       `lift USER AMOUNT`, the record being the first of a list
//!
//! It ends with 0 where every difference is of a listed class.
mod classes;
mod edits;
mod form;
mod known;
mod library;
mod memory;
mod raises;
mod reads;
mod shrink;
mod work;
mod writes;

use classes::ALL;
use compare::answers::{Edit, Raise};
use compare::lists;
use compare::plains;
use compare::sources::{shorts, Source};
use library::Library;
use oracle::{List, Record};
use reads::{settled, Met, Verdict};
use std::process::ExitCode;
use std::time::Instant;
use work::Tally;

#[global_allocator]
static MEMORY: memory::Memory = memory::Memory::new();

/// A tag to be edited that is longer is not shown.
const SHOWN: usize = 1 << 20;

/// What is asked for.
#[derive(Clone, Copy)]
struct Options {
    readings: u64,
    writings: u64,
    raises: u64,
    edits: u64,
    seed: u64,
    short: u32,
    cuts: u64,
    threads: usize,
}

fn main() -> ExitCode {
    oracle::quiet();
    let words: Vec<String> = std::env::args().skip(1).collect();
    let words: Vec<&str> = words.iter().map(String::as_str).collect();
    match words[..] {
        ["read", hex] => one_tag(hex),
        ["write", list] => one_list(list),
        ["raise", hex, user, amount] => one_raise(hex, user, amount),
        ["edit", hex, ref change @ ..] => one_edit(hex, change),
        _ => match options(&words) {
            Ok(options) => all(options),
            Err(why) => {
                eprintln!("compare: {why}");
                ExitCode::from(2)
            }
        },
    }
}

fn options(words: &[&str]) -> Result<Options, String> {
    let threads = std::thread::available_parallelism().map_or(1, |n| n.get());
    let (readings, many) = (10_000_000, 1_000_000);
    let mut out =
        Options { readings, writings: many, raises: many, edits: many, seed: 1, short: 3, cuts: 3000, threads };
    for pair in words.chunks(2) {
        let [name, value] = pair else { return Err(format!("no value for {}", pair[0])) };
        let value: u64 = value.parse().map_err(|_| format!("not a number: {value}"))?;
        match *name {
            "--readings" => out.readings = value,
            "--writings" => out.writings = value,
            "--raises" => out.raises = value,
            "--edits" => out.edits = value,
            "--seed" => out.seed = value,
            "--short" => out.short = value.min(3) as u32,
            "--cuts" => out.cuts = value,
            "--threads" => out.threads = value.max(1) as usize,
            _ => return Err(format!("unknown: {name}")),
        }
    }
    Ok(out)
}

fn all(options: Options) -> ExitCode {
    let (count, wrong) = oracle::big_stack(known::check);
    wrong.iter().for_each(|what| println!("WRONG {what}"));
    println!("{} of {count} smallest inputs show their class and nothing unlisted", count - wrong.len());
    let mut reading = Tally::default();
    for source in sources(options) {
        let tally = timed(&source.name(), || readings(&source, options.threads));
        reading.join(&Tally { kept: Vec::new(), ..tally });
    }
    let name = format!("lists of records, seed {}", options.seed);
    let writing = timed(&name, || writings(options));
    let raising = timed(&format!("raises, seed {}", options.seed), || raises(options));
    let editing = timed(&format!("edits, seed {}", options.seed), || edits(options));
    report("readings", &reading);
    report("writings", &writing);
    raised(&raising);
    edited(&editing);
    let unlisted = reading.unlisted + writing.unlisted + raising.unlisted + editing.unlisted;
    if wrong.is_empty() && unlisted == 0 {
        ExitCode::SUCCESS
    } else {
        ExitCode::FAILURE
    }
}

fn sources(options: Options) -> Vec<Source> {
    let mut out = vec![Source::Generated { seed: options.seed, count: options.readings }];
    out.push(Source::Large { seed: options.seed, count: options.readings / 50 });
    if options.cuts > 0 {
        out.push(Source::cuts(options.seed, options.cuts));
    }
    if options.short > 0 {
        out.extend(shorts(options.short));
    }
    out
}

// runs, and says what became of it
fn timed(name: &str, run: impl FnOnce() -> Tally) -> Tally {
    let began = Instant::now();
    let tally = run();
    println!("{name}: {} cases, {} unlisted, {:.1} s", tally.cases, tally.unlisted, began.elapsed().as_secs_f64());
    tally
}

fn readings(source: &Source, threads: usize) -> Tally {
    let tally = work::run(&source.name(), source.count(), threads, |index, comparison| {
        let mut tag = Vec::new();
        source.tag(index, &mut tag);
        comparison.tag(&tag);
    });
    for (index, what) in tally.kept.clone() {
        let mut tag = Vec::new();
        source.tag(index, &mut tag);
        println!("UNLISTED case {index}: {what}");
        println!("    {}", oracle::hex(&tag));
        println!("    shrunk: {}", oracle::hex(&shrunk_tag(tag, what)));
    }
    tally
}

fn shrunk_tag(tag: Vec<u8>, what: String) -> Vec<u8> {
    oracle::big_stack(move || {
        let mut library = Library::new();
        shrink::tag(&tag, &mut |less| {
            settled(&mut library, |comparison| comparison.tag(less)).unlisted.as_deref() == Some(&what)
        })
    })
}

// the last two lists have a body of 2^24 bytes, more or less
fn list(options: Options, index: u64) -> List {
    match options.writings.checked_sub(index + 1) {
        Some(last @ 0..=1) => lists::long()[last as usize].clone(),
        _ => lists::list(options.seed, index),
    }
}

fn writings(options: Options) -> Tally {
    let tally = work::run("lists of records", options.writings, options.threads, |index, comparison| {
        comparison.list(&list(options, index));
    });
    for (index, what) in tally.kept.clone() {
        let list = list(options, index);
        println!("UNLISTED list {index}: {what}");
        println!("    {}", form::list(&list));
        println!("    shrunk: {}", form::list(&shrunk_list(list, what)));
    }
    tally
}

fn shrunk_list(list: List, what: String) -> List {
    oracle::big_stack(move || {
        let mut library = Library::new();
        shrink::list(&list, &mut |less| {
            settled(&mut library, |comparison| comparison.list(less)).unlisted.as_deref() == Some(&what)
        })
    })
}

fn raises(options: Options) -> Tally {
    let tally = work::run("raises", options.raises, options.threads, |index, comparison| {
        comparison.raise(&plains::raise(options.seed, index));
    });
    for (index, what) in tally.kept.clone() {
        let raise = plains::raise(options.seed, index);
        println!("UNLISTED raise {index}: {what}");
        println!("    {}", raise_line(&raise));
        println!("    shrunk: {}", raise_line(&shrunk_raise(raise, what)));
    }
    tally
}

// as `compare raise` takes it
fn raise_line(raise: &Raise) -> String {
    format!("{} {} {}", oracle::hex(&raise.tag), oracle::hex(&raise.user), raise.amount)
}

// the same user and amount, in a smaller tag
fn shrunk_raise(raise: Raise, what: String) -> Raise {
    oracle::big_stack(move || {
        let mut library = Library::new();
        let with = |tag: &[u8]| Raise { tag: tag.to_vec(), ..raise.clone() };
        let tag = shrink::tag(&raise.tag, &mut |less| {
            settled(&mut library, |comparison| comparison.raise(&with(less))).unlisted.as_deref() == Some(&what)
        });
        with(&tag)
    })
}

// the last three edits have a body of 2^24 bytes, more or less
fn edit(options: Options, index: u64) -> Edit<Record> {
    match options.edits.checked_sub(index + 1) {
        Some(last @ 0..=2) => plains::long()[last as usize].clone(),
        _ => plains::edit(options.seed, index),
    }
}

fn edits(options: Options) -> Tally {
    let tally = work::run("edits", options.edits, options.threads, |index, comparison| {
        comparison.edit(&edit(options, index));
    });
    for (index, what) in tally.kept.clone() {
        let edit = edit(options, index);
        println!("UNLISTED edit {index}: {what}");
        if edit.tag.len() > SHOWN {
            println!("    its tag has {} bytes and is not shown", edit.tag.len());
            continue;
        }
        println!("    {}", form::edit(&edit));
        println!("    shrunk: {}", form::edit(&shrunk_edit(edit, what)));
    }
    tally
}

// the same change with a smaller record, in a smaller tag
fn shrunk_edit(edit: Edit<Record>, what: String) -> Edit<Record> {
    oracle::big_stack(move || {
        let mut library = Library::new();
        shrink::edit(&edit, &mut |less| {
            settled(&mut library, |comparison| comparison.edit(less)).unlisted.as_deref() == Some(&what)
        })
    })
}

fn report(name: &str, tally: &Tally) {
    println!("{name}: {} cases, {} agreements", tally.cases, tally.agreed);
    met(&tally.met);
    differences(tally);
}

fn differences(tally: &Tally) {
    for (class, count) in ALL.iter().zip(&tally.listed) {
        if *count > 0 {
            println!("    {count:>10}  {}", class.name());
        }
    }
    println!("    {:>10}  unlisted", tally.unlisted);
}

fn raised(tally: &Tally) {
    println!("raises: {} cases, {} as foretold", tally.cases, tally.agreed);
    println!("    raised, by answer (0) or refusal: {}", numbered(&tally.met.raised));
    println!("    {:>10}  unlisted", tally.unlisted);
}

fn edited(tally: &Tally) {
    println!("edits: {} cases, {} agreements", tally.cases, tally.agreed);
    for (name, counts) in ["replaced", "removed", "added", "lifted"].iter().zip(&tally.met.edited) {
        println!("    {name}, by answer (0) or refusal: {}", numbered(counts));
    }
    let Met { fits: [full, over], anew, unplain, .. } = tally.met;
    println!("    frames of just the header's size: {full}, of one byte more: {over}");
    println!("    lifts that take a new frame: {anew}; tags that are then not plain: {unplain}");
    differences(tally);
}

// the counts that are not 0, each after its number
fn numbered(counts: &[u64]) -> String {
    let met = counts.iter().enumerate().filter(|(_, count)| **count > 0);
    met.map(|(number, count)| format!("{number}: {count}")).collect::<Vec<_>>().join(", ")
}

fn met(met: &Met) {
    let names = ["text", "popularimeter", "table", "chapter", "contents", "raw"];
    let kinds: Vec<String> = names.iter().zip(met.kinds).map(|(name, count)| format!("{name} {count}")).collect();
    println!("    read, by kind: {}; runs of subframes {}", kinds.join(", "), met.runs);
    println!("    read, by end (0) or refusal: {}", numbered(&met.ends));
}

fn one_tag(hex: &str) -> ExitCode {
    let tag = match oracle::unhex(hex) {
        Ok(tag) => tag,
        Err(why) => {
            eprintln!("compare: {why}");
            return ExitCode::from(2);
        }
    };
    oracle::big_stack(move || {
        let mut library = Library::new();
        println!("the crate:");
        oracle::lines(&oracle::read_past(&tag)).iter().for_each(|line| println!("    {line}"));
        let verdict = settled(&mut library, |comparison| comparison.tag(&tag));
        println!("here:\n    {:#?}", library.read(&tag));
        said(verdict)
    })
}

fn one_list(text: &str) -> ExitCode {
    let list = match oracle::parse_list(text) {
        Ok(list) => list,
        Err(why) => {
            eprintln!("compare: {why}");
            return ExitCode::from(2);
        }
    };
    oracle::big_stack(move || {
        let mut library = Library::new();
        let answer =
            oracle::write(list.version, list.unsynchronisation, list.padding, list.file_altered, &list.records);
        println!("the crate: {}", oracle::written_line(&answer));
        said(settled(&mut library, |comparison| comparison.list(&list)))
    })
}

fn one_raise(hex: &str, user: &str, amount: &str) -> ExitCode {
    let raise = match (oracle::unhex(hex), oracle::unhex(user), amount.parse()) {
        (Ok(tag), Ok(user), Ok(amount)) => Raise { tag, user, amount },
        _ => {
            eprintln!("compare: no raise: {hex} {user} {amount}");
            return ExitCode::from(2);
        }
    };
    oracle::big_stack(move || {
        let mut library = Library::new();
        let verdict = settled(&mut library, |comparison| comparison.raise(&raise));
        println!("here: {:?}", library.raise(&raise));
        said(verdict)
    })
}

fn one_edit(hex: &str, change: &[&str]) -> ExitCode {
    let edit = match (oracle::unhex(hex), form::change(change)) {
        (Ok(tag), Some(change)) => Edit { tag, change },
        _ => {
            eprintln!("compare: no edit: {hex} {}", change.join(" "));
            return ExitCode::from(2);
        }
    };
    oracle::big_stack(move || {
        let mut library = Library::new();
        said(settled(&mut library, |comparison| comparison.edit(&edit)))
    })
}

fn said(verdict: Verdict) -> ExitCode {
    println!("listed: {}", form::classes(&verdict.listed));
    println!("unlisted: {}", verdict.unlisted.as_deref().unwrap_or("nothing"));
    if verdict.unlisted.is_none() {
        ExitCode::SUCCESS
    } else {
        ExitCode::FAILURE
    }
}
