//! Compiles the C examples and the hard use of the C interface against the header and the archive, and runs them; runs the
//! Rust examples beside them.

mod common;
#[allow(dead_code)]
#[path = "../examples/edit.rs"]
mod edit;
#[allow(dead_code)]
#[path = "../examples/minutes.rs"]
mod minutes;
#[allow(dead_code)]
#[path = "../examples/raise.rs"]
mod raise;
#[allow(dead_code)]
#[path = "../examples/write.rs"]
mod write;

use common::{command, compile, folder, root, said, Language};
use std::io::Write;
use std::path::{Path, PathBuf};
use std::process::Stdio;
use streamvault::{read, Content, Encoding, Record, Refusal, Version};

/// Compiles an example as C.
fn compiled(name: &str, into: &Path) -> PathBuf {
    compiled_as(Language::C99, name, into)
}

fn compiled_as(language: Language, name: &str, into: &Path) -> PathBuf {
    let program = into.join(name);
    compile(language, &[root().join("examples").join(name).with_extension("c")], &program);
    program
}

/// Standard output and status of a program that is given these bytes on standard input.
fn fed(program: &Path, input: &[u8]) -> (String, i32) {
    let mut child = command(program).stdin(Stdio::piped()).stdout(Stdio::piped()).spawn().unwrap();
    child.stdin.take().unwrap().write_all(input).unwrap();
    said(&child.wait_with_output().unwrap())
}

/// What the Rust example prints, and its status.
fn in_rust(input: &[u8]) -> (String, i32) {
    let mut out = Vec::new();
    let whole = minutes::minutes(input, &mut out).unwrap();
    (String::from_utf8(out).unwrap(), i32::from(!whole))
}

#[test]
fn minutes_prints_the_given_tag_and_the_one_it_wrote() {
    let folder = folder("minutes");
    let program = compiled("minutes", &folder);
    let tag = b"ID3\x04\0\0\0\0\0\x12POPM\0\0\0\x08\0\0a\0\x05\x01\0\0\0\0";
    let want = ("given:\na 4294967296\nwritten:\nroom 7 65280\n".to_string(), 0);
    assert_eq!(fed(&program, tag), want);
    assert_eq!(in_rust(tag), want);

    let file = folder.join("tag");
    std::fs::write(&file, tag).unwrap();
    assert_eq!(said(&command(&program).arg(&file).output().unwrap()), want);
}

#[test]
fn minutes_says_what_may_be_missing() {
    let program = compiled("minutes", &folder("minutes-missing"));
    let sample = |name: &str| std::fs::read(root().join("samples").join(name)).unwrap();
    for (input, given, status) in [
        (b"no tag at all".to_vec(), "refused 1\n", 1),
        (sample("damaged/refused-encrypted.mp3"), "room 1 7\nrefused 8\n", 1),
        (sample("damaged/refused-counter.mp3"), "room 1 7\nrefused 35\n", 1),
        (sample("damaged/cut-in-picture-2.3.mp3"), "room 1 7\nrefused 5\ncut\n", 1),
        (sample("damaged/cut-in-picture-2.2.mp3"), "room 1 7\ncut\n", 1),
        (sample("damaged/cut-between-frames-2.4.mp3"), "room 1 7\ncut\n", 1),
        (sample("damaged/compressed-2.4.mp3"), "room 2 300\ncompressed\n", 1),
        (sample("march/second.mp3"), "room 2 65280\n", 0),
        (sample("march/box.mp3"), "room 3 720000\n", 0),
    ] {
        let want = (format!("given:\n{given}written:\nroom 7 65280\n"), status);
        assert_eq!(fed(&program, &input), want);
        assert_eq!(in_rust(&input), want);
    }
}

#[test]
fn hard_use_in_c_has_known_answers() {
    let program = folder("hard").join("hard");
    compile(Language::C99, &[root().join("tests/hard.c")], &program);
    let want = "2000 cases, every answer known\n";
    assert_eq!(said(&command(&program).arg("2000").output().unwrap()), (want.to_string(), 0));
}

#[test]
fn write_makes_the_same_tag_in_c_cplusplus_and_rust() {
    let tag = write::tag().unwrap();
    for language in Language::ALL {
        let folder = folder(&format!("write-{language:?}"));
        let (program, file) = (compiled_as(language, "write", &folder), folder.join("tag"));
        assert_eq!(said(&command(&program).arg(&file).output().unwrap()), (String::new(), 0));
        assert_eq!(std::fs::read(&file).unwrap(), tag, "{language:?}");
        assert_eq!(said(&command(&program).output().unwrap()), (String::new(), 2));
    }
}

#[test]
fn what_write_made_is_read_back() {
    let records = read(&write::tag().unwrap()).unwrap();
    let ids: Vec<_> = records.iter().map(|record| record.id.to_string()).collect();
    assert_eq!(ids, ["TIT2", "POPM", "MLLT", "CHAP", "CTOC"]);
    let title = |text: &str| Content::Text { encoding: Encoding::Utf8, text: text.into() };
    assert_eq!(records[0].content, title("March"));
    assert_eq!(records[1].content, Content::Popularimeter { user: b"room 7".to_vec(), rating: 0, counter: 65_280 });
    let subframes: Result<Vec<_>, _> = records[3].content.subframes(Version::Id3v24).collect();
    assert_eq!(subframes.unwrap(), [Record::new(b"TIT2", title("Part one"))]);
}

/// Raises in a copy of a sample by the C example: what it prints, its status, and the file then.
fn raised_in_c(program: &Path, sample: &str, user: &str, amount: u64, into: &Path) -> (String, i32, Vec<u8>) {
    let file = into.join("song.mp3");
    std::fs::copy(root().join("samples").join(sample), &file).unwrap();
    let (text, status) = said(&command(program).args([user, &amount.to_string()]).arg(&file).output().unwrap());
    (text, status, std::fs::read(&file).unwrap())
}

/// The same by the Rust example, in the C example's words.
fn raised_in_rust(sample: &str, user: &str, amount: u64, into: &Path) -> (String, i32, Vec<u8>) {
    let file = into.join("song.mp3");
    std::fs::copy(root().join("samples").join(sample), &file).unwrap();
    let (text, status) = match raise::raise_in(&file, user.as_bytes(), amount) {
        Ok(counter) => (format!("{counter}\n"), 0),
        Err(error) => (format!("{error}\n"), 1),
    };
    (text, status, std::fs::read(&file).unwrap())
}

#[test]
fn raise_adds_to_the_counter_in_the_file() {
    let folder = folder("raise-example");
    let program = compiled("raise", &folder);
    for (sample, user, amount, want) in [
        ("adverts/both.mp3", "adverts", 300, Ok(312)),
        ("adverts/both.mp3", "room 1", 0, Ok(300)),
        ("adverts/both.mp3", "room 1", 1, Ok(301)),
        ("march/box.mp3", "room 3", u64::MAX - 720_000, Ok(u64::MAX)),
        ("march/box.mp3", "room 3", u64::MAX, Err(Refusal::SUM_TOO_LARGE)),
        ("adverts/full.mp3", "adverts", 1, Err(Refusal::COUNTER_TOO_SHORT)),
        ("adverts/music.mp3", "adverts", 1, Err(Refusal::USER_ABSENT)),
        ("march/third.mp3", "room 2", 1, Err(Refusal::NOT_PLAIN)),
        ("march/no-tag.mp3", "room 2", 1, Err(Refusal::NO_TAG)),
        ("damaged/cut-at-once.mp3", "room 2", 1, Err(Refusal::NO_TAG)),
    ] {
        let mut bytes = std::fs::read(root().join("samples").join(sample)).unwrap();
        assert_eq!(streamvault::raise(&mut bytes, user.as_bytes(), amount), want);
        let said = want.map_or_else(|refusal| refusal.to_string(), |counter| counter.to_string());
        let want = (format!("{said}\n"), i32::from(want.is_err()), bytes);
        assert_eq!(raised_in_c(&program, sample, user, amount, &folder), want);
        assert_eq!(raised_in_rust(sample, user, amount, &folder), want);
    }
}

#[test]
fn raise_takes_no_amount_that_is_not_a_number_of_64_bits() {
    let folder = folder("raise-amounts");
    let (program, file) = (compiled("raise", &folder), folder.join("song.mp3"));
    let song = root().join("samples/adverts/both.mp3");
    std::fs::copy(&song, &file).unwrap();
    for amount in ["", "-1", "+1", "1.5", "18446744073709551616", "99999999999999999999"] {
        let output = command(&program).args(["adverts", amount]).arg(&file).output().unwrap();
        assert_eq!(said(&output), (String::new(), 2), "{amount}");
    }
    assert_eq!(std::fs::read(&file).unwrap(), std::fs::read(&song).unwrap());
    let output = command(&program).args(["room 1", "18446744073709551615"]).arg(&file).output().unwrap();
    assert_eq!(said(&output), (format!("{}\n", Refusal::SUM_TOO_LARGE), 1));
}

#[test]
fn edit_sets_the_title_in_the_file() {
    let folder = folder("edit-example");
    let (program, file) = (compiled("edit", &folder), folder.join("song.mp3"));
    for (sample, title, want) in [
        ("adverts/full.mp3", Some("Filled"), Ok("replaced")),
        ("adverts/full.mp3", Some("Full"), Ok("replaced")),
        ("adverts/full.mp3", Some("F"), Ok("replaced")),
        ("adverts/full.mp3", None, Ok("removed")),
        ("adverts/full.mp3", Some("No room for a title so long"), Err(Refusal::NO_ROOM)),
        ("march/first.mp3", None, Ok("removed")),
        ("march/box.mp3", Some("A box"), Ok("replaced")),
        ("march/third.mp3", Some("Third"), Err(Refusal::NOT_PLAIN)),
        ("march/no-tag.mp3", Some("None"), Err(Refusal::NO_TAG)),
        // the title is found before what is refused, and then the whole tag is
        ("damaged/refused-encrypted.mp3", None, Err(Refusal::ENCRYPTED)),
    ] {
        let song = std::fs::read(root().join("samples").join(sample)).unwrap();
        let mut bytes = song.clone();
        let done = edit::set_title(&mut bytes, title);
        assert_eq!(done, want, "{sample}");
        let said_of_it = done.map_or_else(|refusal| refusal.to_string(), str::to_string);
        let wanted = (format!("{said_of_it}\n"), i32::from(done.is_err()));
        std::fs::write(&file, &song).unwrap();
        assert_eq!(said(&command(&program).arg(&file).args(title).output().unwrap()), wanted, "{sample}");
        assert_eq!(std::fs::read(&file).unwrap(), bytes);
        std::fs::write(&file, &song).unwrap();
        let in_rust = edit::edit_in(&file, title).map_or_else(|error| error.to_string(), str::to_string);
        assert_eq!((in_rust, std::fs::read(&file).unwrap()), (said_of_it, bytes));
    }
}

#[test]
fn edit_adds_a_title_where_there_is_none() {
    let folder = folder("edit-added");
    let (program, file) = (compiled("edit", &folder), folder.join("song.mp3"));
    std::fs::copy(root().join("samples/adverts/full.mp3"), &file).unwrap();
    let edited = |title: Option<&str>| said(&command(&program).arg(&file).args(title).output().unwrap()).0;
    for (title, done) in [(None, "removed\n"), (None, "there is none\n"), (Some("Last"), "added\n")] {
        assert_eq!(edited(title), done);
    }
    let records = read(&std::fs::read(&file).unwrap()).unwrap();
    let ids: Vec<_> = records.iter().map(|record| record.id.to_string()).collect();
    assert_eq!(ids, ["POPM", "POPM", "TIT2"]);
    assert_eq!(records[2].content, Content::Text { encoding: Encoding::Latin1, text: b"Last".to_vec() });
    assert_eq!(said(&command(&program).output().unwrap()), (String::new(), 2));
}
