//! The sum over each damaged sample: it is listed, whatever is printed, and the status is not 0. The listing of each tells
//! the same of its first tag.

mod common;

use common::{command, root, said};
use std::collections::BTreeSet;
use std::fs;
use std::process::Output;

fn sum(words: &[&str], path: &str) -> Output {
    command(env!("CARGO_BIN_EXE_streamvault")).current_dir(root()).arg("sum").args(words).arg(path).output().unwrap()
}

// ---- what may be listed, as the table has it

fn refused(number: u32, counted: u32) -> String {
    let meaning = match number {
        1 => "fewer than ten bytes, or they do not begin with \"ID3\"",
        2 => "the edition is not 2.2, 2.3 or 2.4; or a version, mode, mark or state that is none",
        5 => "bytes are missing: of the extended header, of a data length, or of a 2.3 body",
        8 => "a frame is encrypted",
        35 => "a popularimeter's counter does not fit 64 bits",
        other => panic!("no sample is refused with {other}"),
    };
    format!("refused {number}: {meaning} ({})", before(counted))
}

fn cut(there: u32, promised: u32, counted: u32) -> String {
    format!("cut: {there} bytes of a tag of {promised} are there ({})", before(counted))
}

fn short(there: u32, promised: u32, counted: u32) -> String {
    format!("cut: {there} bytes of a tag of {promised} are there, a frame is short ({})", before(counted))
}

fn before(counted: u32) -> String {
    format!("popularimeters counted before it: {counted}")
}

fn compressed() -> String {
    "a compressed popularimeter, not counted".to_string()
}

fn cut_header(at: u32) -> String {
    format!("a frame header at byte {at}, cut by the end of the tag, not read")
}

fn behind_frames(id: &str, at: u32) -> String {
    format!("the id {id} at byte {at}, after the frames, not read")
}

fn second(at: u32) -> String {
    format!("a second tag at byte {at}, not read")
}

fn at_end(at: u32) -> String {
    format!("a tag at the end, its footer at byte {at}, not read")
}

/// Sums one sample in every format: this is in all, this is listed and nothing else, and the status is 1.
fn listed(name: &str, all: &str, lacks: &[String]) {
    let path = format!("samples/damaged/{name}.mp3");
    let lines: String = lacks.iter().map(|lack| format!("{path}: {lack}\n")).collect();

    let (out, status) = said(&sum(&[], &path));
    assert_eq!(status, 1);
    let (_, behind) = out.split_once("\nin all ").unwrap();
    let (found, rest) = behind.split_once('\n').unwrap();
    assert_eq!(found, format!("{all} popularimeters"));
    assert_eq!(rest.split_once('\n').unwrap().1, lines);

    let output = sum(&["--csv"], &path);
    assert_eq!(said(&output).1, 1);
    assert_eq!(String::from_utf8(output.stderr).unwrap(), lines);

    let (out, status) = said(&sum(&["--json"], &path));
    assert_eq!(status, 1);
    assert_eq!(out.matches(&format!("{{\"file\": \"{path}\"")).count(), lacks.len(), "{out}");
}

/// Lists one sample: what is wrong with its tag is told, apart from a refusal, which is in the listing.
fn told(name: &str, lacks: &[String]) {
    let path = format!("samples/damaged/{name}.mp3");
    let output =
        command(env!("CARGO_BIN_EXE_streamvault")).current_dir(root()).arg("list").arg(&path).output().unwrap();
    let (out, status) = said(&output);
    let elsewhere = ["refused", "a second tag", "a tag at the end"];
    let of_tag = lacks.iter().filter(|lack| !elsewhere.iter().any(|other| lack.starts_with(other)));
    let what = |lack: &String| lack.split(" (").next().unwrap().replace(", not counted", ", not read");
    let lines: String = of_tag.map(|lack| format!("streamvault: {path}: {}\n", what(lack))).collect();
    assert_eq!(String::from_utf8(output.stderr).unwrap(), lines);
    let refused = out.lines().last().unwrap().starts_with("refused ");
    assert_eq!(status, i32::from(refused || !lines.is_empty()), "{out}");
}

/// A test for each sample, and the names of all.
macro_rules! samples {
    ($($test:ident: $name:literal, $all:literal, [$($lack:expr),*];)*) => {
        $(#[test]
        fn $test() {
            let lacks = [$($lack),*];
            listed($name, $all, &lacks);
            told($name, &lacks);
        })*

        const NAMES: &[&str] = &[$($name),*];
    };
}

samples! {
    cut_between_frames_22: "cut-between-frames-2.2", "7 from 1", [cut(72, 96, 1)];
    cut_between_frames_23: "cut-between-frames-2.3", "7 from 1", [cut(92, 120, 1)];
    cut_between_frames_24: "cut-between-frames-2.4", "7 from 1", [cut(92, 120, 1)];
    cut_in_frame_header_22: "cut-in-frame-header-2.2", "7 from 1", [cut(76, 96, 1), behind_frames("POP", 72)];
    cut_in_frame_header_23: "cut-in-frame-header-2.3", "7 from 1", [cut(96, 120, 1), behind_frames("POPM", 92)];
    cut_in_frame_header_24: "cut-in-frame-header-2.4", "7 from 1", [cut(96, 120, 1), behind_frames("POPM", 92)];
    cut_in_picture_22: "cut-in-picture-2.2", "7 from 1", [short(66, 96, 1)];
    cut_in_picture_23: "cut-in-picture-2.3", "7 from 1", [refused(5, 1), cut(74, 120, 1)];
    cut_in_picture_24: "cut-in-picture-2.4", "7 from 1", [short(74, 120, 1)];
    cut_in_popularimeter_22: "cut-in-popularimeter-2.2", "7 from 1", [short(87, 96, 1)];
    cut_in_popularimeter_23: "cut-in-popularimeter-2.3", "7 from 1", [refused(5, 1), cut(111, 120, 1)];
    cut_in_popularimeter_24: "cut-in-popularimeter-2.4", "7 from 1", [short(111, 120, 1)];
    cut_in_padding_22: "cut-in-padding-2.2", "307 from 2", [cut(93, 96, 2)];
    cut_in_padding_23: "cut-in-padding-2.3", "307 from 2", [cut(117, 120, 2)];
    cut_in_padding_24: "cut-in-padding-2.4", "307 from 2", [cut(117, 120, 2)];
    cut_at_once: "cut-at-once", "0 from 0", [refused(1, 0)];
    cut_in_first_letters: "cut-in-first-letters", "0 from 0", [refused(1, 0)];
    cut_in_tag_header: "cut-in-tag-header", "0 from 0", [refused(1, 0)];
    cut_in_extended_header: "cut-in-extended-header", "0 from 0", [refused(5, 0)];
    cut_unsynchronised_23: "cut-unsynchronised-2.3", "7 from 1", [refused(5, 1), cut(80, 121, 1)];
    cut_unsynchronised_24: "cut-unsynchronised-2.4", "7 from 1", [short(80, 121, 1)];
    short_frame: "short-frame", "7 from 1", [short(112, 112, 1)];
    small_size_22: "small-size-2.2", "7 from 1", [cut_header(72)];
    small_size_23: "small-size-2.3", "7 from 1", [cut_header(92)];
    small_size_24: "small-size-2.4", "7 from 1", [cut_header(92)];
    behind_padding_22: "behind-padding-2.2", "7 from 1", [behind_frames("POP", 80)];
    behind_padding_23: "behind-padding-2.3", "7 from 1", [behind_frames("POPM", 100)];
    behind_padding_24: "behind-padding-2.4", "7 from 1", [behind_frames("POPM", 100)];
    behind_padding_unsynchronised: "behind-padding-unsynchronised", "7 from 1", [behind_frames("POPM", 101)];
    refused_edition: "refused-edition", "0 from 0", [refused(2, 0)];
    refused_encrypted: "refused-encrypted", "7 from 1", [refused(8, 1)];
    refused_counter: "refused-counter", "7 from 1", [refused(35, 1)];
    compressed_23: "compressed-2.3", "300 from 1", [compressed()];
    compressed_24: "compressed-2.4", "300 from 1", [compressed()];
    second_tag: "second-tag", "307 from 2", [second(120)];
    second_tag_behind_footer: "second-tag-behind-footer", "307 from 2", [second(122)];
    tag_at_end: "tag-at-end", "307 from 2", [at_end(248)];
    tag_at_end_before_id3v1: "tag-at-end-before-id3v1", "307 from 2", [at_end(248)];
    tag_at_end_alone: "tag-at-end-alone", "0 from 0", [at_end(128)];
}

#[test]
fn every_damaged_sample_has_its_test() {
    let folder = fs::read_dir(root().join("samples/damaged")).unwrap();
    let files: BTreeSet<_> = folder.map(|entry| entry.unwrap().file_name().into_string().unwrap()).collect();
    assert_eq!(files, NAMES.iter().map(|name| format!("{name}.mp3")).collect());
}
