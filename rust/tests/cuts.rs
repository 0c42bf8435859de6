//! Every cut of a tag of each edition and mode, as files that the program sums: all counters are in the sum, or the file is
//! listed. What is in the sum is what was read whole.

mod common;

use common::{command, folder, id, root, said, MODES, VERSIONS};
use std::collections::BTreeMap;
use std::fs;
use std::path::Path;
use streamvault::{Content, Encoding, Mode, Reader, Version, Writer};

/// Popularimeters and their sum by user.
type Totals = BTreeMap<String, (u64, u64)>;

fn add(totals: &mut Totals, user: &[u8], counter: u64) {
    let user = String::from_utf8(user.to_vec()).expect("the users here are text");
    let total = totals.entry(user).or_default();
    *total = (total.0 + 1, total.1 + counter);
}

// ---- the tags

fn add_popularimeter(writer: &mut Writer, user: &[u8], counter: u64) {
    let id = id(writer.version(), b"POP", b"POPM");
    writer.add(id, &Content::Popularimeter { user, rating: 9, counter }).unwrap();
}

/// A popularimeter first, in the middle and last; between them a text, a picture and in later editions a chapter with a
/// popularimeter inside; padding.
fn tag(version: Version, mode: Mode) -> Vec<u8> {
    let mut writer = Writer::new(version).mode(mode);
    add_popularimeter(&mut writer, b"room 1", 0xFF00);
    let title = Content::Text { encoding: Encoding::Utf16, text: b"\xFF\xFEA\0 \0s\0o\0n\0g\0" };
    writer.add(id(version, b"TT2", b"TIT2"), &title).unwrap();
    add_popularimeter(&mut writer, b"room 2", 1 << 40);
    let picture = [&b"\0PNG\x03\0"[..], &[0xFF, 0xE0, 0xFF, 0x00].repeat(8)].concat();
    writer.add(id(version, b"PIC", b"APIC"), &Content::Raw { body: picture }).unwrap();
    if version != Version::Id3v22 {
        let mut inner = Writer::new(version);
        add_popularimeter(&mut inner, b"room 3", 77);
        let run = &inner.finish(0).unwrap()[10..];
        let element = &b"c1"[..];
        let chapter = Content::Chapter { element, start_time: 0, end_time: 1, start_offset: 2, end_offset: 3, run };
        writer.add(b"CHAP", &chapter).unwrap();
    }
    add_popularimeter(&mut writer, b"room 1", 5);
    writer.finish(12).unwrap()
}

/// The whole popularimeters that a reader shows.
fn add_whole(totals: &mut Totals, tag: &[u8]) {
    let Ok(mut reader) = Reader::open(tag, Vec::new()) else { return };
    while let Some(Ok(frame)) = reader.next_frame() {
        if let (Content::Popularimeter { user, counter, .. }, false) = (frame.content, frame.short) {
            add(totals, user, counter);
        }
    }
}

// ---- the program

/// The totals, and what is listed, a line for each.
fn summed(folder: &Path) -> (Totals, String, i32) {
    let output = command(env!("CARGO_BIN_EXE_streamvault")).arg("sum").arg("--csv").arg(folder).output().unwrap();
    let (out, status) = said(&output);
    let totals = out.lines().skip(1).map(|line| {
        let fields: Vec<_> = line.split(',').collect();
        (fields[0].to_string(), (fields[1].parse().unwrap(), fields[2].parse().unwrap()))
    });
    (totals.collect(), String::from_utf8(output.stderr).unwrap(), status)
}

/// Sums every cut of a file from one length on, all of which are listed, and then the whole file.
fn every_cut_is_listed(name: &str, whole: &[u8], from: usize, whole_is_listed: bool) {
    let folder = folder(name);
    let mut want = Totals::new();
    for len in from..whole.len() {
        fs::write(folder.join(format!("{len:04}.mp3")), &whole[..len]).unwrap();
        add_whole(&mut want, &whole[..len]);
    }
    let (totals, listed, status) = summed(&folder);
    assert_eq!((totals, status), (want, 1), "{name}");
    for len in from..whole.len() {
        assert!(listed.contains(&format!("/{len:04}.mp3: ")), "{name}: a cut to {len} bytes is not listed");
    }

    let alone = folder.join("whole");
    fs::create_dir(&alone).unwrap();
    fs::write(alone.join("whole.mp3"), whole).unwrap();
    let mut want = Totals::new();
    add_whole(&mut want, whole);
    let (totals, listed, status) = summed(&alone);
    assert_eq!((totals, status), (want, i32::from(whole_is_listed)), "{name}: {listed}");
}

#[test]
fn every_cut_of_a_tag_of_each_edition_and_mode_is_listed() {
    for version in VERSIONS {
        for mode in MODES {
            every_cut_is_listed(&format!("cuts-{version}-{mode:?}"), &tag(version, mode), 0, false);
        }
    }
}

/// The sample of the boxes with a counter of twelve bytes, which is the same in 2.4.
#[test]
fn every_cut_of_a_tag_with_a_long_counter_is_listed() {
    let mut tag = fs::read(root().join("samples/march/box.mp3")).unwrap();
    tag.truncate(streamvault::header(&tag).unwrap().tag_len());
    for edition in [3, 4] {
        tag[3] = edition;
        every_cut_is_listed(&format!("cuts-long-counter-{edition}"), &tag, 0, false);
    }
}

#[test]
fn every_cut_of_a_tag_with_a_footer_is_listed_up_to_the_footer() {
    let mut tag = tag(Version::Id3v24, Mode::Off);
    tag[5] |= 0x10;
    let header = tag[3..10].to_vec();
    let footed = [&tag[..], b"3DI", &header].concat();
    every_cut_is_listed("cuts-footer", &tag, 0, false);
    // the footer has no counters: what is cut in it lacks none
    for len in tag.len()..=footed.len() {
        let folder = folder("cuts-in-footer");
        fs::write(folder.join("cut.mp3"), &footed[..len]).unwrap();
        assert_eq!(summed(&folder).2, 0, "{len} bytes");
    }
}

#[test]
fn every_cut_in_a_second_tag_is_listed() {
    let (first, second) = (tag(Version::Id3v24, Mode::Off), tag(Version::Id3v22, Mode::Off));
    let both = [&first[..], &second].concat();
    every_cut_is_listed("cuts-second", &both, first.len() + 1, true);
}
