//! The oracle as a program. `oracle help` lists what it can be asked.
use oracle::{
    agrees, big_stack, hex, lines, parse_list, quiet, read, read_past, read_uncut, sample, unhex, write, written_line, Reading, Sample,
};
use std::io::{self, BufRead, Read, Write};
use std::process::exit;

const HELP: &str = "\
oracle read HEX      a tag, cut at its end, as lines: header, frames, how it stopped
oracle past HEX      the same, going on behind a frame whose body the crate refuses
oracle uncut HEX     the same without the cut
oracle plain HEX     read on the program's own stack, without the limit on nesting
oracle write         a list of records from standard input, written by the crate
oracle many          a question in each line of standard input (read HEX, past HEX, uncut HEX, write PARTS, or HEX alone),
                     an answer in each line of standard output; parts and lines are put together with semicolons;
                     an empty line and one that begins with # come back as they are
oracle sample N [SEED]
                     N generated tags in hex: valid, cut, damaged
oracle self N [SEED] compares the walk with the crate's own on the same tags
HEX is - for no bytes; @FILE takes the hex from a file. The forms stand in README.md.";

fn main() {
    quiet();
    let args: Vec<String> = std::env::args().skip(1).collect();
    let words: Vec<&str> = args.iter().map(String::as_str).collect();
    let done = match words[..] {
        ["read", tag] => show(tag, read),
        ["past", tag] => show(tag, read_past),
        ["uncut", tag] => show(tag, read_uncut),
        ["plain", tag] => plain(tag),
        ["write"] => written(),
        ["many"] => big_stack(many),
        ["sample", count] => samples(count, "1"),
        ["sample", count, seed] => samples(count, seed),
        ["self", count] => self_check(count, "1"),
        ["self", count, seed] => self_check(count, seed),
        ["help"] => {
            println!("{HELP}");
            Ok(())
        }
        _ => Err(HELP.to_string()),
    };
    if let Err(why) = done {
        eprintln!("{why}");
        exit(2);
    }
}

fn bytes(text: &str) -> Result<Vec<u8>, String> {
    match text.strip_prefix('@') {
        Some(file) => unhex(&std::fs::read_to_string(file).map_err(|err| err.to_string())?),
        None => unhex(text),
    }
}

fn show(tag: &str, how: fn(&[u8]) -> Reading) -> Result<(), String> {
    let tag = bytes(tag)?;
    for line in big_stack(move || lines(&how(&tag))) {
        println!("{line}");
    }
    Ok(())
}

/// `Tag::read_from` as it is called by a user, on the stack that the process has.
#[allow(deprecated)]
fn plain(tag: &str) -> Result<(), String> {
    let tag = bytes(tag)?;
    match id3::Tag::read_from(&tag[..]) {
        Ok(tag) => println!("ok frames {}", tag.frames().count()),
        Err(err) => println!("error {err}"),
    }
    Ok(())
}

fn written() -> Result<(), String> {
    let mut text = String::new();
    io::stdin().read_to_string(&mut text).map_err(|err| err.to_string())?;
    let list = parse_list(&text)?;
    let line = big_stack(move || {
        written_line(&write(list.version, list.unsynchronisation, list.padding, list.file_altered, &list.records))
    });
    println!("{line}");
    Ok(())
}

fn many() -> Result<(), String> {
    let mut out = io::BufWriter::new(io::stdout().lock());
    for line in io::stdin().lock().lines() {
        let line = line.map_err(|err| err.to_string())?;
        let question = line.trim();
        let answer = match question {
            "" => String::new(),
            note if note.starts_with('#') => note.to_string(),
            _ => answer(question).unwrap_or_else(|why| format!("question refused {why:?}")),
        };
        writeln!(out, "{answer}").map_err(|err| err.to_string())?;
    }
    out.flush().map_err(|err| err.to_string())
}

fn answer(question: &str) -> Result<String, String> {
    let (word, rest) = question.split_once(' ').unwrap_or(("read", question));
    match word {
        "read" => Ok(lines(&read(&unhex(rest)?)).join("; ")),
        "past" => Ok(lines(&read_past(&unhex(rest)?)).join("; ")),
        "uncut" => Ok(lines(&read_uncut(&unhex(rest)?)).join("; ")),
        "write" => {
            let list = parse_list(rest)?;
            let answer = write(list.version, list.unsynchronisation, list.padding, list.file_altered, &list.records);
            Ok(written_line(&answer))
        }
        _ => Ok(lines(&read(&unhex(question)?)).join("; ")),
    }
}

fn samples(count: &str, seed: &str) -> Result<(), String> {
    let (count, mut sample) = counted(count, seed)?;
    let mut out = io::BufWriter::new(io::stdout().lock());
    for _ in 0..count {
        writeln!(out, "{}", hex(&sample.tag())).map_err(|err| err.to_string())?;
    }
    out.flush().map_err(|err| err.to_string())
}

fn counted(count: &str, seed: &str) -> Result<(u64, Sample), String> {
    let count = count.parse().map_err(|_| "not a number".to_string())?;
    let seed = seed.parse().map_err(|_| "not a number".to_string())?;
    Ok((count, sample(seed)))
}

fn self_check(count: &str, seed: &str) -> Result<(), String> {
    let (count, mut sample) = counted(count, seed)?;
    big_stack(move || {
        for n in 0..count {
            let tag = sample.tag();
            agrees(&tag).map_err(|why| format!("tag {n}: {}\n{why}", hex(&tag)))?;
        }
        println!("{count} tags, {count} agree");
        Ok(())
    })
}
