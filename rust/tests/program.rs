//! The program as it is run: what it prints and its exit status.

mod common;

use common::{command, compile_shared, folder, root, said};
use std::ffi::{c_char, CStr, OsStr};
use std::fs::{self, File};
use std::io::Read;
use std::os::fd::AsRawFd;
use std::os::unix::ffi::OsStrExt;
use std::os::unix::fs::{symlink, OpenOptionsExt, PermissionsExt};
use std::os::unix::process::CommandExt;
use std::path::{Path, PathBuf};
use std::process::{Command, Output, Stdio};
use std::sync::OnceLock;
use std::time::{Duration, SystemTime};
use streamvault::{read, Content, Mode, Refusal, Version, Writer};

fn program() -> Command {
    let mut command = command(env!("CARGO_BIN_EXE_streamvault"));
    command.current_dir(root());
    command
}

fn run(words: &[&str]) -> Output {
    program().args(words).output().unwrap()
}

fn err(output: &Output) -> String {
    String::from_utf8(output.stderr.clone()).unwrap()
}

/// A tag with a popularimeter of each user, all with the same counter.
fn tag(users: &[&str], counter: u64) -> Vec<u8> {
    let mut writer = Writer::new(Version::Id3v24).mode(Mode::Off);
    for user in users {
        writer.add(b"POPM", &Content::Popularimeter { user: user.as_bytes(), rating: 0, counter }).unwrap();
    }
    writer.finish(0).unwrap()
}

#[test]
fn the_sum_of_the_sample_month() {
    let output = run(&["sum", "samples/march"]);
    let want = "   counter  popularimeters  user
         0               1  hex:636166E9
4294967438               3  room 1
     65283               2  room 2
    720000               1  room 3

in all 4295752721 from 7 popularimeters
5 files with a tag, 1 without
";
    assert_eq!(said(&output), (want.to_string(), 0));
    assert_eq!(err(&output), "");
}

#[test]
fn the_sum_as_comma_separated_values() {
    let output = run(&["sum", "--csv", "samples/march"]);
    let want = "user,popularimeters,counter\nhex:636166E9,1,0\nroom 1,3,4294967438\nroom 2,2,65283\nroom 3,1,720000\n";
    assert_eq!(said(&output), (want.to_string(), 0));
    assert_eq!(err(&output), "");
}

#[test]
fn the_sum_of_all_samples_lists_the_damaged_ones() {
    let output = run(&["sum", "samples", "--csv"]);
    let want =
        "user,popularimeters,counter\nadverts,2,267\nhex:636166E9,1,0\nroom 1,37,4294968555\nroom 2,11,67983\nroom 3,1,720000\n";
    assert_eq!(said(&output), (want.to_string(), 1));
    let listed = err(&output);
    assert!(listed.lines().all(|line| line.starts_with("samples/damaged/")), "{listed}");
    // one file after another by their names
    let paths: Vec<_> = listed.lines().map(|line| line.split_once(": ").unwrap().0).collect();
    assert!(paths.is_sorted(), "{listed}");
}

#[test]
fn the_sum_as_json() {
    let (out, status) = said(&run(&["sum", "--json", "samples"]));
    assert_eq!(status, 1);
    for part in [
        r#"{"user": "room 1", "popularimeters": 37, "counter": "4294968555"}"#,
        r#""tags": 46,"#,
        r#""without_tag": 3,"#,
        r#"{"file": "samples/damaged/cut-in-popularimeter-2.3.mp3", "number": 5, "meaning": "#,
        r#"{"file": "samples/damaged/refused-counter.mp3", "number": 35, "meaning": "#,
        r#"{"file": "samples/damaged/short-frame.mp3", "promised": 112, "there": 112, "short_frame": true, "counted_before": 1}"#,
        r#"{"file": "samples/damaged/compressed-2.4.mp3"}"#,
        r#"{"file": "samples/damaged/small-size-2.2.mp3", "found": "cut frame header", "at": 72}"#,
        r#"{"file": "samples/damaged/behind-padding-2.3.mp3", "found": "id POPM", "at": 100}"#,
        r#"{"file": "samples/damaged/second-tag.mp3", "found": "second tag", "at": 120}"#,
        r#"{"file": "samples/damaged/tag-at-end.mp3", "found": "footer at the end", "at": 248}"#,
        r#""unreadable": []"#,
    ] {
        assert!(out.contains(part), "{part} in {out}");
    }
}

#[test]
fn a_counter_that_is_too_large_is_listed_and_what_was_before_it_counts() {
    let path = "samples/damaged/refused-counter.mp3";
    let listed = format!(
        "{path}: refused 35: a popularimeter's counter does not fit 64 bits (popularimeters counted before it: 1)\n"
    );
    let table = "counter  popularimeters  user
      7               1  room 1

in all 7 from 1 popularimeters
1 file with a tag, 0 without
";
    assert_eq!(said(&run(&["sum", path])), (format!("{table}{listed}"), 1));
    let output = run(&["sum", "--csv", path]);
    assert_eq!(said(&output), ("user,popularimeters,counter\nroom 1,1,7\n".to_string(), 1));
    assert_eq!(err(&output), listed);
    let (out, status) = said(&run(&["sum", "--json", path]));
    assert_eq!(status, 1);
    for part in [
        r#"{"user": "room 1", "popularimeters": 1, "counter": "7"}"#,
        r#""popularimeters": 1,"#,
        r#""counter": "7","#,
        r#""number": 35, "meaning": "a popularimeter's counter does not fit 64 bits", "counted_before": 1}"#,
    ] {
        assert!(out.contains(part), "{part} in {out}");
    }
}

#[test]
fn a_long_counter_counts_in_every_edition() {
    let folder = folder("long-counters");
    let counter = [0, 0, 0, 0, 0, 0, 0, 0, 0, 0x0A, 0xFC, 0x80];
    for (edition, flags, head) in [
        (2, 0, &b"POP\0\0\x14"[..]),
        (3, 0, b"POPM\0\0\0\x14\0\0"),
        (3, 0x80, b"POPM\0\0\0\x14\0\0"),
        (4, 0, b"POPM\0\0\0\x14\0\0"),
        (4, 0x80, b"POPM\0\0\0\x14\0\x02"),
    ] {
        let frame = [head, b"room 3\0\0", &counter].concat();
        // twice the same, and padding
        let frames = [&frame[..], &frame, &[0; 8]].concat();
        let tag = [&[b'I', b'D', b'3', edition, 0, flags, 0, 0, 0, frames.len() as u8], &frames[..]].concat();
        fs::write(folder.join(format!("{edition}-{flags}.mp3")), tag).unwrap();
    }
    let want = "user,popularimeters,counter\nroom 3,10,7200000\n";
    assert_eq!(said(&run(&["sum", "--csv", folder.to_str().unwrap()])), (want.to_string(), 0));
}

#[test]
fn the_number_of_threads_changes_nothing() {
    let folder = folder("jobs");
    let songs = ["march/first.mp3", "damaged/cut-in-picture-2.3.mp3", "march/third.mp3", "damaged/second-tag.mp3"];
    let songs = songs.map(|song| fs::read(root().join("samples").join(song)).unwrap());
    for number in 0..400 {
        let inner = folder.join(format!("{}", number % 7));
        fs::create_dir_all(&inner).unwrap();
        fs::write(inner.join(format!("{number}.mp3")), &songs[number % 4]).unwrap();
    }
    symlink("gone", folder.join("3/dangling.mp3")).unwrap();
    let path = folder.to_str().unwrap();
    for format in [&[][..], &["--csv"], &["--json"]] {
        let summed = |jobs: &str| run(&[&["sum", "--jobs", jobs], format, &[path]].concat());
        let one = summed("1");
        assert_eq!(said(&one).1, 3);
        assert_eq!(one, run(&[&["sum"], format, &[path]].concat()));
        for jobs in ["2", "3", "8", "50"] {
            assert_eq!(one, summed(jobs), "{jobs} threads, {format:?}");
        }
    }
}

#[test]
fn a_file_counts_once_and_links_to_folders_are_not_followed() {
    let folder = folder("links");
    let song = fs::read(root().join("samples/march/first.mp3")).unwrap();
    fs::create_dir(folder.join("inner")).unwrap();
    fs::write(folder.join("inner/a.mp3"), song).unwrap();
    fs::hard_link(folder.join("inner/a.mp3"), folder.join("inner/b.mp3")).unwrap();
    symlink("a.mp3", folder.join("inner/c.mp3")).unwrap();
    symlink("..", folder.join("inner/loop")).unwrap();
    let path = folder.to_str().unwrap();
    let (out, status) = said(&run(&["sum", path, path]));
    assert_eq!(status, 0);
    assert!(out.contains("in all 125 from 1 popularimeters\n1 file with a tag, 0 without\n"), "{out}");
    assert!(out.contains("5 further names"), "{out}");
    assert!(out.contains("2 links to folders not followed"), "{out}");
    // a link that was named is followed
    let (out, status) = said(&run(&["sum", folder.join("inner/loop").to_str().unwrap()]));
    assert_eq!(status, 0);
    assert!(out.contains("in all 125 "), "{out}");
}

#[test]
fn a_link_to_a_folder_that_is_not_summed_is_listed() {
    let folder = folder("elsewhere");
    for inner in ["summed", "other"] {
        fs::create_dir(folder.join(inner)).unwrap();
        fs::write(folder.join(inner).join("a.mp3"), tag(&["room 1"], 5)).unwrap();
    }
    symlink("../other", folder.join("summed/link")).unwrap();
    let path = |name: &str| folder.join(name).to_str().unwrap().to_string();
    let line = format!("1 links to folders not followed\n{}: a link to a folder elsewhere", path("summed/link"));
    let (out, status) = said(&run(&["sum", &path("summed")]));
    assert_eq!(status, 1);
    assert!(out.contains("in all 5 from 1 ") && out.contains(&line), "{out}");
    let output = run(&["sum", "--csv", &path("summed")]);
    assert_eq!(said(&output).1, 1);
    assert!(err(&output).starts_with(&line), "{}", err(&output));
    let (out, status) = said(&run(&["sum", "--json", &path("summed")]));
    assert_eq!(status, 1);
    let item = format!("\"links_elsewhere\": [\n    {{\"file\": \"{}\"}}\n  ]", path("summed/link"));
    assert!(out.contains("\"links_not_followed\": 1") && out.contains(&item), "{out}");
    // nothing is missing where the folder is summed as well, by whatever name, before or after
    for other in ["other", "summed/link", "summed/../other"] {
        for paths in [[path("summed"), path(other)], [path(other), path("summed")]] {
            let (out, status) = said(&run(&["sum", &paths[0], &paths[1]]));
            assert_eq!(status, 0, "{out}");
            assert!(out.contains("in all 10 from 2 ") && !out.contains("elsewhere, not"), "{out}");
        }
    }
}

#[test]
fn what_cannot_be_read_is_listed() {
    let folder = folder("unreadable");
    symlink("gone", folder.join("dangling.mp3")).unwrap();
    let (out, status) = said(&run(&["sum", folder.to_str().unwrap(), "no/such/path"]));
    assert_eq!(status, 3);
    assert!(out.contains("dangling.mp3: not readable: ") && out.contains("no/such/path: not readable: "), "{out}");
}

#[test]
fn a_file_whose_bytes_cannot_be_read_is_listed() {
    // it opens, and its first byte is none that can be read
    let (out, status) = said(&run(&["sum", "/proc/self/mem"]));
    assert_eq!(status, 3);
    assert!(out.contains("/proc/self/mem: not readable: "), "{out}");
}

#[test]
fn a_footer_of_its_own_is_no_further_tag() {
    let folder = folder("footer");
    let song = fs::read(root().join("samples/damaged/second-tag-behind-footer.mp3")).unwrap();
    // the tag with its footer alone, with sound, and with an ID3v1 tag
    let footed = &song[..122];
    let old = [&b"TAG"[..], &[0; 125]].concat();
    for (name, behind) in [("a.mp3", &[][..]), ("b.mp3", &[0xFF; 300]), ("c.mp3", &old)] {
        fs::write(folder.join(name), [footed, behind].concat()).unwrap();
    }
    let (out, status) = said(&run(&["sum", folder.to_str().unwrap()]));
    assert_eq!(status, 0, "{out}");
    assert!(out.contains("in all 921 from 6 popularimeters\n3 files with a tag, 0 without\n"), "{out}");
}

#[test]
fn only_the_tag_is_read_of_a_large_file() {
    let folder = folder("large");
    let mut song = fs::read(root().join("samples/march/first.mp3")).unwrap();
    let path = folder.join("large.mp3");
    fs::write(&path, &song).unwrap();
    let file = fs::OpenOptions::new().write(true).open(&path).unwrap();
    file.set_len(1 << 40).unwrap();
    assert_eq!(said(&run(&["sum", path.to_str().unwrap()])).1, 0);
    // the same where the header claims more than there is
    song[6..10].copy_from_slice(&[0xFF; 4]);
    fs::write(&path, &song).unwrap();
    let (out, status) = said(&run(&["sum", path.to_str().unwrap()]));
    assert_eq!(status, 1);
    assert!(out.contains("in all 125 ") && out.contains("bytes of a tag of 536870921 are there"), "{out}");
}

#[test]
fn the_listing_of_a_sample() {
    let want = "\
tag 2.4 size 87 flags 128 ext 0
frame 0 TIT2 at 0 body 11 text whole
frame 1 POPM at 21 body 13 popularimeter whole user 726F6F6D2031 rating 0 counter 4294967296
frame 2 POPM at 44 body 9 popularimeter whole user 726F6F6D2032 rating 0 counter 3
frame 3 POPM at 63 body 6 popularimeter whole user 636166E9 rating 0 counter 0
end 4
";
    assert_eq!(said(&run(&["list", "samples/march/third.mp3"])), (want.to_string(), 0));
}

#[test]
fn the_listing_of_a_long_counter_and_of_one_that_is_too_large() {
    let want = "\
tag 2.3 size 57 flags 0 ext 0
frame 0 TIT2 at 0 body 9 text whole
frame 1 POPM at 19 body 20 popularimeter whole user 726F6F6D2033 rating 0 counter 720000
end 2
";
    assert_eq!(said(&run(&["list", "samples/march/box.mp3"])), (want.to_string(), 0));
    let output = run(&["list", "samples/damaged/refused-counter.mp3"]);
    let want = "\
tag 2.4 size 117 flags 0 ext 0
frame 0 TIT2 at 0 body 5 text whole
frame 1 POPM at 15 body 9 popularimeter whole user 726F6F6D2031 rating 0 counter 7
frame 2 APIC at 34 body 38 raw whole
refused 35
";
    assert_eq!(said(&output), (want.to_string(), 1));
    assert_eq!(err(&output), "");
}

#[test]
fn the_listing_from_standard_input_and_of_a_refused_file() {
    let file = fs::File::open(root().join("samples/march/archive/old.mp3")).unwrap();
    let output = program().args(["list", "-"]).stdin(Stdio::from(file)).output().unwrap();
    let (out, status) = said(&output);
    assert_eq!(status, 0);
    assert!(out.ends_with("counter 17\nend 2\n"), "{out}");
    let (out, status) = said(&run(&["list", "samples/damaged/cut-in-picture-2.3.mp3"]));
    assert_eq!(status, 1);
    assert!(out.ends_with("counter 7\nrefused 5\n"), "{out}");
    assert_eq!(said(&run(&["list", "samples/march/no-tag.mp3"])), ("refused 1\n".to_string(), 1));
}

/// A tag of one frame whose id would clear a screen.
const CLEARING: &[u8] = b"ID3\x04\0\0\0\0\0\x0A\x1b[2J\0\0\0\0\0\0";

#[test]
fn an_id_is_listed_as_its_bytes_to_a_pipe_and_to_a_file() {
    let folder = folder("id");
    let path = folder.join("id.mp3");
    fs::write(&path, CLEARING).unwrap();
    let want = "tag 2.4 size 10 flags 0 ext 0\nframe 0 \x1b[2J at 0 body 0 raw whole\nend 1\n";
    let listing = || {
        let mut command = program();
        command.arg("list").arg(&path);
        command
    };
    assert_eq!(said(&listing().output().unwrap()), (want.to_string(), 0));
    let copy = folder.join("listing");
    assert!(listing().stdout(File::create(&copy).unwrap()).status().unwrap().success());
    assert_eq!(fs::read_to_string(copy).unwrap(), want);
}

#[test]
fn an_id_is_escaped_on_a_terminal() {
    let path = folder("id-shown").join("id.mp3");
    fs::write(&path, CLEARING).unwrap();
    let mut command = program();
    command.arg("list").arg(&path);
    let want = "tag 2.4 size 10 flags 0 ext 0\nframe 0 \\u{1b}[2J at 0 body 0 raw whole\nend 1\n";
    assert_eq!(shown(command), (want.to_string(), 0));
}

extern "C" {
    fn grantpt(terminal: i32) -> i32;
    fn unlockpt(terminal: i32) -> i32;
    fn ptsname(terminal: i32) -> *const c_char;
}

/// What a command shows on a terminal, and its exit status.
fn shown(mut command: Command) -> (String, i32) {
    // not to become the terminal of the tests
    const O_NOCTTY: i32 = 0o400;
    let open = |path: &Path| File::options().read(true).write(true).custom_flags(O_NOCTTY).open(path).unwrap();
    let mut screen = open(Path::new("/dev/ptmx"));
    let number = screen.as_raw_fd();
    // SAFETY: the file is open, and only one test asks for a name, which ends at a zero
    let name = unsafe {
        assert_eq!((grantpt(number), unlockpt(number)), (0, 0));
        CStr::from_ptr(ptsname(number))
    };
    let status = command.stdout(open(Path::new(OsStr::from_bytes(name.to_bytes())))).status().unwrap();
    // the terminal's end is an error, once no program has it open
    drop(command);
    let mut bytes = Vec::new();
    let _ = screen.read_to_end(&mut bytes);
    (String::from_utf8(bytes).unwrap().replace("\r\n", "\n"), status.code().unwrap())
}

#[test]
fn a_listing_tells_what_it_lacks() {
    let path = "samples/damaged/cut-between-frames-2.4.mp3";
    let output = run(&["list", path]);
    let (out, status) = said(&output);
    assert_eq!(status, 1);
    assert!(out.ends_with("end 3\n"), "{out}");
    assert_eq!(err(&output), format!("streamvault: {path}: cut: 92 bytes of a tag of 120 are there\n"));
}

#[test]
fn no_user_is_a_formula_to_a_spreadsheet() {
    let path = folder("formulas").join("a.mp3");
    let users = ["=1+1", "+49 30", "-1", "@SUM(1)", "\t=1", "\r=1", " =1", "a;=1", "a@b.example", "'=1"];
    fs::write(&path, tag(&users, 7)).unwrap();
    let path = path.to_str().unwrap();
    let want = "user,popularimeters,counter
hex:093D31,1,7
hex:0D3D31,1,7
hex:203D31,1,7
'=1,1,7
hex:2B3439203330,1,7
hex:2D31,1,7
hex:3D312B31,1,7
hex:4053554D283129,1,7
\"a;=1\",1,7
a@b.example,1,7
";
    assert_eq!(said(&run(&["sum", "--csv", path])), (want.to_string(), 0));
    // elsewhere they are printed as they are
    let (table, _) = said(&run(&["sum", path]));
    let (json, _) = said(&run(&["sum", "--json", path]));
    for user in users.into_iter().filter(|user| user.starts_with(['=', '+', '-', '@'])) {
        assert!(table.contains(&format!("  {user}\n")), "{table}");
        assert!(json.contains(&format!("{{\"user\": \"{user}\", ")), "{json}");
    }
}

#[test]
fn a_path_is_printed_without_loss() {
    let folder = folder("paths");
    for name in [&b"caf\xE9.mp3"[..], b"caf\xEA.mp3", b"caf\\xE9.mp3", "clear\x1b[2J\n\u{202e}.mp3".as_bytes()] {
        fs::write(folder.join(OsStr::from_bytes(name)), b"ID3").unwrap();
    }
    let path = folder.to_str().unwrap();
    let names = [r"caf\\xE9.mp3", r"caf\xE9.mp3", r"caf\xEA.mp3", r"clear\u{1b}[2J\n\u{202e}.mp3"];
    let want = names.map(|name| format!("{path}/{name}"));
    let listed = |text: &str| -> Vec<String> {
        text.lines().filter_map(|line| Some(line.split_once(": refused 1: ")?.0.to_string())).collect()
    };
    let (out, status) = said(&run(&["sum", path]));
    assert_eq!((listed(&out), status), (want.to_vec(), 1));
    let output = run(&["sum", "--csv", path]);
    assert_eq!((listed(&err(&output)), said(&output).1), (want.to_vec(), 1));

    let (out, status) = said(&run(&["sum", "--json", path]));
    assert_eq!(status, 1);
    let hex = |name: &[u8]| -> String {
        [path.as_bytes(), b"/", name].concat().iter().map(|byte| format!("{byte:02X}")).collect()
    };
    for file in [
        format!("hex:{}", hex(b"caf\xE9.mp3")),
        format!("hex:{}", hex(b"caf\xEA.mp3")),
        format!(r"{path}/caf\\xE9.mp3"),
        format!(r"{path}/clear\u001b[2J\u000a\u202e.mp3"),
    ] {
        assert!(out.contains(&format!("{{\"file\": \"{file}\", ")), "{file} in {out}");
    }
    assert!(!out.contains(|c: char| c.is_control() && c != '\n'), "{out}");
}

#[test]
fn a_listing_names_its_file_without_loss() {
    let path = folder("path-of-a-list").join(OsStr::from_bytes(b"caf\xE9\x1b.mp3"));
    let output = program().arg("list").arg(&path).output().unwrap();
    assert_eq!(said(&output), (String::new(), 3));
    assert!(err(&output).contains(r"/caf\xE9\u{1b}.mp3: "), "{}", err(&output));
}

#[test]
fn every_status() {
    for (words, status) in [
        (&["sum", "samples/march"][..], 0),
        (&["list", "samples/march/first.mp3"], 0),
        (&["sum", "samples/damaged/refused-encrypted.mp3"], 1),
        (&["sum", "samples/damaged/refused-counter.mp3"], 1),
        (&["sum", "samples/damaged/cut-in-padding-2.4.mp3"], 1),
        (&["sum", "samples/damaged/second-tag.mp3"], 1),
        (&["list", "samples/damaged/refused-encrypted.mp3"], 1),
        (&["list", "samples/damaged/refused-counter.mp3"], 1),
        (&["list", "samples/damaged/cut-in-padding-2.4.mp3"], 1),
        (&["list", "samples/damaged/short-frame.mp3"], 1),
        (&["raise", "--user", "adverts", "--by", "1", "--dry-run", "samples/adverts/both.mp3"], 0),
        (&["raise", "--user", "adverts", "--by", "1", "--dry-run", "samples/adverts/full.mp3"], 0),
        (&["raise", "--user", "adverts", "--by", "1", "--dry-run", "--keep-size", "samples/adverts/full.mp3"], 1),
        (&["raise", "--user", "adverts", "--by", "1", "--dry-run", "samples/adverts/music.mp3"], 1),
        (&["recover", "samples/adverts/full.mp3"], 0),
        (&["recover", "samples/no such"], 3),
        (&["recover"], 2),
        (&["raise", "--user", "adverts", "--by", "1", "--dry-run", "samples/no such"], 3),
        (&["raise", "--user", "adverts", "--by", "1"], 2),
        (&["sum"], 2),
        (&["list", "samples/march/first.mp3", "samples/march/third.mp3"], 2),
        (&["sum", "samples/no such"], 3),
        (&["list", "samples/no such"], 3),
        (&["list", "samples"], 3),
        // what cannot be read wins
        (&["sum", "samples/damaged", "samples/no such"], 3),
        (&["sum", "--csv", "samples/damaged", "samples/no such"], 3),
        (&["sum", "--json", "samples/no such", "samples/damaged"], 3),
    ] {
        assert_eq!(said(&run(words)).1, status, "{words:?}");
    }
}

#[test]
fn what_is_not_printed_is_status_1() {
    let commands =
        [&["sum", "samples/march"][..], &["sum", "--csv", "samples/march"], &["sum", "--json", "samples/march"]];
    for words in commands.into_iter().chain([&["list", "samples/march/first.mp3"][..], &["--help"], &["--version"]]) {
        let printed_to = |out: Stdio| program().args(words).stdout(out).stderr(Stdio::piped()).output().unwrap();
        let full = File::options().write(true).open("/dev/full").unwrap();
        // what is open for reading only
        for file in [full, File::open("/dev/null").unwrap()] {
            let output = printed_to(file.into());
            assert_eq!(output.status.code(), Some(1), "{words:?}");
            assert!(err(&output).starts_with("streamvault: standard output: "), "{}", err(&output));
        }
        // a pipe that nothing reads any more
        let mut reader = Command::new("true").stdin(Stdio::piped()).spawn().unwrap();
        let pipe = reader.stdin.take().unwrap();
        reader.wait().unwrap();
        let output = printed_to(pipe.into());
        assert_eq!((output.status.code(), err(&output).as_str()), (Some(1), ""), "{words:?}");
    }
}

#[test]
fn what_cannot_be_told_leaves_the_status() {
    for (words, status) in [
        (&["sum", "--csv", "samples/damaged"][..], 1),
        (&["list", "samples/damaged/cut-in-padding-2.4.mp3"], 1),
        (&["sum"], 2),
        (&["sum", "--csv", "samples/no such"], 3),
        (&["list", "samples/no such"], 3),
    ] {
        let full = File::options().write(true).open("/dev/full").unwrap();
        let output = program().args(words).stderr(full).output().unwrap();
        assert_eq!(said(&output).1, status, "{words:?}");
    }
}

#[test]
fn bad_usage_is_status_2() {
    let raises = [&["raise", "--user", "u", "."][..], &["raise", "--user", "u", "--by", "1", "-"]];
    let others = [&["sum"][..], &["list"], &["sum", "--xml", "."], &["sum", "--jobs", "0", "."], &["help!"]];
    for words in others.into_iter().chain(raises) {
        let output = run(words);
        assert_eq!(said(&output), (String::new(), 2), "{words:?}");
        assert!(err(&output).contains("usage: "), "{words:?}");
    }
    assert_eq!(said(&run(&["--help"])).1, 0);
}

// ---- raising

/// A copy of a sample in a folder of this name, and its bytes.
fn copied(name: &str, sample: &str) -> (PathBuf, Vec<u8>) {
    let bytes = fs::read(root().join("samples").join(sample)).unwrap();
    let path = folder(name).join("song.mp3");
    fs::write(&path, &bytes).unwrap();
    (path, bytes)
}

/// The command that raises a user's counter in these files.
fn raising(user: &str, by: &str, files: &[&Path]) -> Command {
    let mut command = program();
    command.args(["raise", "--user", user, "--by", by]).args(files);
    command
}

fn raise(user: &str, by: &str, files: &[&Path]) -> Output {
    raising(user, by, files).output().unwrap()
}

/// Where the counter of a user begins in these bytes.
fn counter_at(bytes: &[u8], user: &str) -> usize {
    let named = [user.as_bytes(), b"\0\0"].concat();
    bytes.windows(named.len()).position(|some| some == named).unwrap() + named.len()
}

/// The same bytes with others at a place.
fn with(bytes: &[u8], place: usize, others: &[u8]) -> Vec<u8> {
    let mut bytes = bytes.to_vec();
    bytes[place..][..others.len()].copy_from_slice(others);
    bytes
}

#[test]
fn a_raise_changes_the_counter_and_nothing_else() {
    let (path, bytes) = copied("raise", "adverts/both.mp3");
    let output = raise("adverts", "300", &[&path]);
    let line = format!("{}: raised by 300 from 12 to 312\n1 file raised, 0 refused\n", path.display());
    assert_eq!((said(&output), err(&output).as_str()), ((line, 0), ""));
    let adverts = with(&bytes, counter_at(&bytes, "adverts"), &[0, 0, 1, 0x38]);
    assert_eq!(fs::read(&path).unwrap(), adverts);
    // the other team's, then
    assert_eq!(said(&raise("room 1", "1000000", &[&path])).1, 0);
    assert_eq!(fs::read(&path).unwrap(), with(&adverts, counter_at(&bytes, "room 1"), &[0, 0x0F, 0x43, 0x6C]));
    let want = "user,popularimeters,counter\nadverts,1,312\nroom 1,1,1000300\n";
    assert_eq!(said(&run(&["sum", "--csv", path.to_str().unwrap()])), (want.to_string(), 0));
}

#[test]
fn a_raise_that_is_only_tried_changes_nothing() {
    let (path, bytes) = copied("raise-tried", "adverts/both.mp3");
    let output = raising("adverts", "3", &[&path]).arg("--dry-run").output().unwrap();
    let want = "would be raised by 3 from 12 to 15\n1 file would be raised, 0 refused; nothing was changed\n";
    assert_eq!(said(&output), (format!("{}: {want}", path.display()), 0));
    assert_eq!(fs::read(&path).unwrap(), bytes);
}

#[test]
fn the_readme_shows_what_a_raise_prints() {
    let files = ["both", "full", "music"].map(|name| format!("samples/adverts/{name}.mp3"));
    let words = ["raise", "--user", "adverts", "--by", "3", "--dry-run"];
    let (out, status) = said(&program().args(words).args(&files).output().unwrap());
    assert_eq!((out.lines().count(), status), (4, 1));
    let readme = fs::read_to_string(root().join("README.md")).unwrap();
    let shown: String = out.lines().map(|line| format!("    {line}\n")).collect();
    assert!(readme.contains(&shown), "{shown}");
    // of the same with --keep-size the line that differs
    let (kept, _) = said(&program().args(words).arg("--keep-size").args(&files).output().unwrap());
    let shown = format!("    {}\n", kept.lines().nth(1).unwrap());
    assert!(shown.contains("refused 44") && readme.contains(&shown), "{shown}");
}

#[test]
fn a_raise_by_nothing_writes_nothing() {
    let (path, bytes) = copied("raise-by-0", "adverts/full.mp3");
    let old = SystemTime::UNIX_EPOCH + Duration::from_secs(1_000_000_000);
    File::options().write(true).open(&path).unwrap().set_modified(old).unwrap();
    let modified = || fs::metadata(&path).unwrap().modified().unwrap();
    let want = format!("{}: raised by 0 from 255 to 255\n1 file raised, 0 refused\n", path.display());
    assert_eq!(said(&raise("adverts", "0", &[&path])), (want, 0));
    assert_eq!((fs::read(&path).unwrap(), modified()), (bytes, old));
    assert_eq!(said(&raise("room 1", "1", &[&path])).1, 0);
    assert!(modified() > old);
}

#[test]
fn what_is_not_raised_says_why_and_stays() {
    let folder = folder("raise-refused");
    let files: Vec<_> = [
        ("adverts/music.mp3", 41),
        ("march/third.mp3", 40),
        ("march/second.mp3", 40),
        ("march/no-tag.mp3", 1),
        ("damaged/refused-edition.mp3", 2),
        ("damaged/refused-encrypted.mp3", 8),
        ("damaged/refused-counter.mp3", 35),
        ("damaged/cut-at-once.mp3", 1),
        ("damaged/cut-in-extended-header.mp3", 5),
        ("damaged/cut-in-padding-2.2.mp3", 40),
        ("damaged/cut-in-padding-2.3.mp3", 40),
        ("damaged/cut-in-popularimeter-2.3.mp3", 5),
        ("damaged/cut-in-popularimeter-2.4.mp3", 40),
        ("damaged/compressed-2.3.mp3", 40),
        ("damaged/small-size-2.4.mp3", 40),
        ("damaged/behind-padding-2.2.mp3", 40),
    ]
    .map(|(sample, number)| (fs::read(root().join("samples").join(sample)).unwrap(), number))
    .into_iter()
    .chain([
        (tag(&["adverts", "room 1", "adverts"], 7), 42),
        (tag(&["adverts"], u64::MAX), 43),
        (tag(&["adverts"], 255), 20),
    ])
    .collect();
    let paths: Vec<_> = (0..files.len()).map(|number| folder.join(format!("{number}.mp3"))).collect();
    let mut want = String::new();
    for (path, (bytes, number)) in paths.iter().zip(&files) {
        fs::write(path, bytes).unwrap();
        want += &format!("{}: {}\n", path.display(), Refusal::from_number(*number).unwrap());
    }
    want += &format!("0 files raised, {} refused\n", files.len());
    let output = raise("adverts", "1", &paths.iter().map(PathBuf::as_path).collect::<Vec<_>>());
    assert_eq!((said(&output), err(&output).as_str()), ((want, 1), ""));
    for (path, (bytes, _)) in paths.iter().zip(&files) {
        assert_eq!(&fs::read(path).unwrap(), bytes, "{}", path.display());
    }
}

#[test]
fn every_file_that_can_be_raised_is() {
    let folder = folder("raise-several");
    let place = |name: &str| folder.join(name);
    for name in ["a.mp3", "b.mp3", "c.mp3"] {
        fs::write(place(name), tag(&["adverts"], if name == "b.mp3" { 255 } else { 7 })).unwrap();
    }
    symlink("gone", place("dangling.mp3")).unwrap();
    let names = ["a.mp3", "b.mp3", ".", "dangling.mp3", "c.mp3"].map(place);
    let output = raise("adverts", "2", &names.each_ref().map(PathBuf::as_path));
    let (out, status) = said(&output);
    assert_eq!(status, 3);
    let lines: Vec<_> = out.lines().collect();
    for (line, (path, want)) in lines.iter().zip(names.iter().zip([
        "raised by 2 from 7 to 9",
        "refused 20: ",
        "not readable: not a file",
        "not readable: No such file",
        "raised by 2 from 7 to 9",
    ])) {
        assert!(line.starts_with(&format!("{}: {want}", path.display())), "{line}");
    }
    assert_eq!(lines[5..], ["2 files raised, 1 refused, 2 not read or written"]);
    assert_eq!(fs::read(place("c.mp3")).unwrap(), tag(&["adverts"], 9));
}

#[test]
fn a_file_is_raised_once_by_whatever_names() {
    let (path, bytes) = copied("raise-twice", "adverts/both.mp3");
    let beside = |name: &str| path.with_file_name(name);
    symlink("song.mp3", beside("link.mp3")).unwrap();
    fs::hard_link(&path, beside("name.mp3")).unwrap();
    // the name given first is that which is raised: here the link, which stays one
    let names = [beside("link.mp3"), path.clone(), path.clone(), beside("name.mp3"), beside("./song.mp3")];
    let (out, status) = said(&raise("adverts", "1", &names.each_ref().map(PathBuf::as_path)));
    assert_eq!(status, 1);
    let mut want = format!("{}: raised by 1 from 12 to 13\n", names[0].display());
    for again in &names[1..] {
        want += &format!("{}: the same file as {}, taken once\n", again.display(), names[0].display());
    }
    assert_eq!(out, want + "1 file raised, 0 refused, 4 named again\n");
    assert_eq!(fs::read(&path).unwrap(), with(&bytes, counter_at(&bytes, "adverts"), &[0, 0, 0, 13]));
    assert!(fs::symlink_metadata(beside("link.mp3")).unwrap().is_symlink());
}

#[test]
fn users_are_any_bytes() {
    let folder = folder("raise-users");
    let song = |name: &str, user: &[u8]| {
        let mut writer = Writer::new(Version::Id3v22).mode(Mode::Off);
        writer.add(b"POP", &Content::Popularimeter { user, rating: 9, counter: 0xF0 }).unwrap();
        fs::write(folder.join(name), writer.finish(3).unwrap()).unwrap();
        folder.join(name)
    };
    let raised = |path: &Path, option: &str, user: &OsStr| {
        let output = program().args(["raise", option]).arg(user).args(["--by", "2"]).arg(path).output().unwrap();
        (read(&fs::read(path).unwrap()).unwrap().remove(0).content, said(&output).1)
    };
    for (name, user) in [("latin", &b"caf\xE9"[..]), ("none", b""), ("hex", b"hex:00"), ("option", b"--by")] {
        let path = song(name, user);
        let want = |counter| Content::Popularimeter { user: user.to_vec(), rating: 9, counter };
        assert_eq!(raised(&path, "--user", OsStr::from_bytes(user)), (want(0xF2), 0));
        let hex: String = user.iter().map(|byte| format!("{byte:02X}")).collect();
        assert_eq!(raised(&path, "--user-hex", OsStr::new(&hex)), (want(0xF4), 0));
        assert_eq!(raised(&path, "--user-hex", OsStr::new(&format!("hex:{hex}"))), (want(0xF6), 0));
        // as text it is another user
        assert_eq!(raised(&path, "--user", OsStr::new(&format!("hex:{hex}"))), (want(0xF6), 1));
    }
}

#[test]
fn only_the_tag_of_a_large_file_is_touched() {
    let (path, bytes) = copied("raise-large", "adverts/both.mp3");
    File::options().write(true).open(&path).unwrap().set_len(1 << 40).unwrap();
    assert_eq!(said(&raise("adverts", "1", &[&path])).1, 0);
    let mut front = vec![0; bytes.len()];
    File::open(&path).unwrap().read_exact(&mut front).unwrap();
    assert_eq!(front, with(&bytes, counter_at(&bytes, "adverts"), &[0, 0, 0, 13]));
    assert_eq!(fs::metadata(&path).unwrap().len(), 1 << 40);
}

#[test]
fn a_file_that_may_not_be_written_stays() {
    let (path, bytes) = copied("raise-read-only", "adverts/both.mp3");
    fs::set_permissions(&path, fs::Permissions::from_mode(0o444)).unwrap();
    assert_eq!(said(&raising("adverts", "1", &[&path]).arg("--dry-run").output().unwrap()).1, 0);
    // who may do everything may write it nevertheless
    let may = File::options().write(true).open(&path).is_ok();
    let (out, status) = said(&raise("adverts", "1", &[&path]));
    let failed = out.contains(": not raised: ") && out.ends_with("0 files raised, 0 refused, 1 not read or written\n");
    assert_eq!((status, failed), if may { (0, false) } else { (3, true) }, "{out}");
    assert_eq!(fs::read(&path).unwrap() == bytes, !may);
}

extern "C" {
    fn setrlimit(resource: i32, limits: &[u64; 2]) -> i32;
    fn signal(number: i32, action: usize) -> usize;
}

/// Lets a command write to no file beyond this byte: a write that begins before it is cut there.
fn limit(command: &mut Command, end: usize) {
    const SIGXFSZ: i32 = 25;
    const IGNORED: usize = 1;
    const RLIMIT_FSIZE: i32 = 1;
    let limited = move || {
        // SAFETY: both calls may be made between fork and exec, and the limits are lent.
        let done = unsafe { signal(SIGXFSZ, IGNORED) != usize::MAX && setrlimit(RLIMIT_FSIZE, &[end as u64; 2]) == 0 };
        done.then_some(()).ok_or_else(std::io::Error::last_os_error)
    };
    // SAFETY: it makes those calls and nothing else.
    unsafe { command.pre_exec(limited) };
}

#[test]
fn a_write_that_fails_or_stops_is_told_and_the_file_stays() {
    let path = folder("raise-unwritten").join("song.mp3");
    let bytes = [&b"ID3\x04\0\0\0\0\0\x0FPOPM\0\0\0\x05\0\0a\0\0\0\xFF"[..], b"sound"].concat();
    let place = 23;
    fs::write(&path, &bytes).unwrap();
    for (end, why) in
        [(place, "File too large"), (place + 1, "only 1 of 2 counter bytes were written, and put back as they were\n")]
    {
        let mut command = raising("a", "1", &[&path]);
        limit(&mut command, end);
        let (out, status) = said(&command.output().unwrap());
        assert_eq!(status, 3, "{out}");
        assert!(out.starts_with(&format!("{}: not raised: {why}", path.display())), "{out}");
        assert!(out.ends_with("\n0 files raised, 0 refused, 1 not read or written\n"), "{out}");
        assert_eq!(fs::read(&path).unwrap(), bytes);
    }
    let mut command = raising("a", "1", &[&path]);
    limit(&mut command, place + 2);
    assert_eq!(said(&command.output().unwrap()).1, 0);
    assert_eq!(fs::read(&path).unwrap(), with(&bytes, place, &[1, 0]));
}

#[test]
fn a_raise_that_cannot_be_printed_is_told_and_is_the_last() {
    let folder = folder("raise-unprinted");
    let [first, second] = ["a.mp3", "b.mp3"].map(|name| folder.join(name));
    // a pipe that nothing reads any more
    let mut reader = Command::new("true").stdin(Stdio::piped()).spawn().unwrap();
    let pipe = reader.stdin.take().unwrap();
    reader.wait().unwrap();
    let full = File::options().write(true).open("/dev/full").unwrap();
    for out in [Stdio::from(full), File::open("/dev/null").unwrap().into(), pipe.into()] {
        for path in [&first, &second] {
            fs::write(path, tag(&["adverts"], 7)).unwrap();
        }
        let mut command = raising("adverts", "1", &[&first, &second]);
        let output = command.stdout(out).stderr(Stdio::piped()).output().unwrap();
        assert_eq!(output.status.code(), Some(1));
        let told = format!("streamvault: {}: raised by 1 from 7 to 8\nstreamvault: no further file", first.display());
        assert!(err(&output).starts_with(&told), "{}", err(&output));
        assert_eq!(fs::read(&first).unwrap(), tag(&["adverts"], 8));
        assert_eq!(fs::read(&second).unwrap(), tag(&["adverts"], 7));
    }
}

// ---- in a new frame

/// The place of a file's journal.
fn journal(path: &Path) -> PathBuf {
    let mut name = path.as_os_str().to_owned();
    name.push(".streamvault-journal");
    PathBuf::from(name)
}

/// What a file of these bytes is to be when a user's counter is lifted.
fn lifted(bytes: &[u8], user: &str, by: u64) -> Vec<u8> {
    let mut bytes = bytes.to_vec();
    streamvault::lift(&mut bytes, user.as_bytes(), by).unwrap();
    bytes
}

#[test]
fn a_counter_with_too_few_bytes_gets_a_new_frame() {
    let (path, bytes) = copied("raise-new-frame", "adverts/full.mp3");
    let output = raise("adverts", "3", &[&path]);
    let line = format!("{}: raised by 3 from 255 to 258, in a new frame\n1 file raised, 0 refused\n", path.display());
    assert_eq!((said(&output), err(&output).as_str()), ((line, 0), ""));
    let after = fs::read(&path).unwrap();
    assert_eq!(after, lifted(&bytes, "adverts", 3));
    assert!(!journal(&path).exists());
    // the next fits the bytes that it now has
    assert!(said(&raise("adverts", "3", &[&path])).0.contains(": raised by 3 from 258 to 261\n"));
    let want = "user,popularimeters,counter\nadverts,1,261\nroom 1,1,300\n";
    assert_eq!(said(&run(&["sum", "--csv", path.to_str().unwrap()])), (want.to_string(), 0));
}

#[test]
fn a_counter_that_is_to_keep_its_size_is_refused() {
    let (path, bytes) = copied("raise-keep-size", "adverts/full.mp3");
    let (out, status) = said(&raising("adverts", "3", &[&path]).arg("--keep-size").output().unwrap());
    assert_eq!((out.contains(&Refusal::COUNTER_TOO_SHORT.to_string()), status), (true, 1), "{out}");
    assert_eq!(fs::read(&path).unwrap(), bytes);
    // where the sum fits, nothing differs
    let (path, bytes) = copied("raise-keep-size", "adverts/both.mp3");
    assert_eq!(said(&raising("adverts", "3", &[&path]).arg("--keep-size").output().unwrap()).1, 0);
    assert_eq!(fs::read(&path).unwrap(), with(&bytes, counter_at(&bytes, "adverts"), &[0, 0, 0, 15]));
}

#[test]
fn a_new_frame_that_is_only_tried_changes_nothing() {
    let (path, bytes) = copied("raise-new-frame-tried", "adverts/full.mp3");
    let (out, status) = said(&raising("adverts", "3", &[&path]).arg("--dry-run").output().unwrap());
    assert!(out.contains(": would be raised by 3 from 255 to 258, in a new frame\n"), "{out}");
    assert_eq!((status, fs::read(&path).unwrap()), (0, bytes));
    assert_eq!(fs::read_dir(path.parent().unwrap()).unwrap().count(), 1);
}

#[test]
fn a_file_of_several_names_gets_no_new_frame() {
    let (path, bytes) = copied("raise-hard-link", "adverts/full.mp3");
    let name = path.with_file_name("name.mp3");
    fs::hard_link(&path, &name).unwrap();
    let (out, status) = said(&raise("adverts", "3", &[&path]));
    assert!(
        out.contains(": not raised: a new frame takes a journal, which would stand beside one of its 2 names only"),
        "{out}"
    );
    assert_eq!((status, fs::read(&path).unwrap()), (3, bytes.clone()));
    // in its own bytes a counter is raised all the same
    assert_eq!(said(&raise("room 1", "3", &[&path])).1, 0);
    fs::remove_file(&name).unwrap();
    assert_eq!(said(&raise("adverts", "3", &[&path])).1, 0);
    assert_eq!(fs::read(&path).unwrap(), lifted(&lifted(&bytes, "room 1", 3), "adverts", 3));
}

#[test]
fn a_folder_that_takes_no_journal_leaves_the_file() {
    let (path, bytes) = copied("raise-read-only-folder", "adverts/full.mp3");
    let folder = path.parent().unwrap();
    fs::set_permissions(folder, fs::Permissions::from_mode(0o555)).unwrap();
    // who may do everything may write there nevertheless
    let may = File::create(folder.join("other")).is_ok();
    let (out, status) = said(&raise("adverts", "3", &[&path]));
    fs::set_permissions(folder, fs::Permissions::from_mode(0o755)).unwrap();
    assert_eq!(
        (status, out.contains(": not raised: its journal: ")),
        if may { (0, false) } else { (3, true) },
        "{out}"
    );
    assert_eq!(fs::read(&path).unwrap() == bytes, !may);
    // nor does a name that leaves no room for the journal's
    let long = folder.join("n".repeat(250));
    fs::write(&long, &bytes).unwrap();
    let (out, status) = said(&raise("adverts", "3", &[&long]));
    assert!(out.contains(": not raised: its journal: File name too long"), "{out}");
    assert_eq!((status, fs::read(&long).unwrap()), (3, bytes));
    assert_eq!(said(&raise("room 1", "3", &[&long])).1, 0);
}

// ---- raises that do not end

/// A song whose counters stand farther back than a journal is long; that of `a` is full.
fn long_song() -> Vec<u8> {
    let mut writer = Writer::new(Version::Id3v24);
    writer.add(b"PRIV", &Content::Raw { body: &[7; 300] }).unwrap();
    for (user, counter) in [("a", 255), ("b", 0x1234)] {
        writer.add(b"POPM", &Content::Popularimeter { user, rating: 9, counter }).unwrap();
    }
    [writer.finish(5).unwrap(), b"sound".to_vec()].concat()
}

/// Has a command killed at one of its operations on files, as tests/stop.c counts them. Of a write some hundredths are done.
fn stop_at(command: &mut Command, operation: usize, hundredths: usize) {
    static OBJECT: OnceLock<PathBuf> = OnceLock::new();
    let object = OBJECT.get_or_init(|| {
        let object = folder("stop").join("stop.so");
        compile_shared(&root().join("tests/stop.c"), &object);
        object
    });
    command.env("LD_PRELOAD", object);
    command.env("STOP_AT", operation.to_string()).env("STOP_TAKES", hundredths.to_string());
}

/// The operations of a raise in a new frame: the journal is made, written and synced, and its folder too; the song is
/// written and synced; the journal is removed, and the folder synced.
const JOURNAL_WRITE: usize = 2;
const SONG_WRITE: usize = 5;
const REMOVAL: usize = 7;
const OPERATIONS: usize = 8;

/// From the first byte to the last that differ.
fn differing(before: &[u8], after: &[u8]) -> std::ops::RangeInclusive<usize> {
    let differs = |at: &usize| before[*at] != after[*at];
    (0..before.len()).find(differs).unwrap()..=(0..before.len()).rfind(differs).unwrap()
}

/// A song that is half changed, since the program was killed in the middle of its write.
fn half_raised(name: &str) -> (PathBuf, Vec<u8>) {
    let (path, bytes) = (folder(name).join("song.mp3"), long_song());
    fs::write(&path, &bytes).unwrap();
    let after = lifted(&bytes, "a", 1);
    let mut command = raising("a", "1", &[&path]);
    stop_at(&mut command, SONG_WRITE, 50);
    assert_eq!(command.output().unwrap().status.code(), None, "it was killed");
    let now = fs::read(&path).unwrap();
    assert!(now != bytes && now != after && journal(&path).exists());
    (path, bytes)
}

/// The program is killed at each operation, in writes also in their middle. What it leaves is put back, or is whole.
#[test]
fn a_raise_that_is_killed_anywhere_is_put_back_or_whole() {
    let (path, bytes) = (folder("killed").join("song.mp3"), long_song());
    let after = lifted(&bytes, "a", 1);
    for (stop, taken) in (1..=OPERATIONS).flat_map(|stop| [0, 1, 50, 99, 100].map(|taken| (stop, taken))) {
        if taken > 0 && stop != JOURNAL_WRITE && stop != SONG_WRITE {
            continue;
        }
        fs::write(&path, &bytes).unwrap();
        let mut command = raising("a", "1", &[&path]);
        stop_at(&mut command, stop, taken);
        assert_eq!(command.output().unwrap().status.code(), None, "{stop}");
        let now = fs::read(&path).unwrap();
        let written = stop > SONG_WRITE || (stop == SONG_WRITE && taken == 100);
        assert_eq!(
            (now == bytes, now == after),
            (stop < SONG_WRITE || (stop == SONG_WRITE && taken <= 1), written),
            "{stop} {taken}"
        );
        assert_eq!(journal(&path).exists(), (JOURNAL_WRITE..=REMOVAL).contains(&stop), "{stop}");
        let (out, status) = said(&run(&["recover", path.to_str().unwrap()]));
        let done = match stop {
            1 | OPERATIONS => "no journal, nothing to put back",
            JOURNAL_WRITE if taken < 100 => "an incomplete journal was removed; nothing to put back",
            _ => "put back as it was before a raise that did not end",
        };
        assert!(out.starts_with(&format!("{}: {done}\n", path.display())) && status == 0, "{stop} {taken}: {out}");
        assert_eq!(fs::read(&path).unwrap(), if stop == OPERATIONS { after.clone() } else { bytes.clone() });
        assert!(!journal(&path).exists());
    }
    fs::write(&path, &bytes).unwrap();
    let mut command = raising("a", "1", &[&path]);
    stop_at(&mut command, OPERATIONS + 1, 0);
    assert_eq!(command.output().unwrap().status.code(), Some(0), "there are no more operations");
}

/// The same of putting back: the file, a journal that is removed, the folder.
#[test]
fn a_recovery_that_is_killed_anywhere_goes_on() {
    for stop in 1..=4 {
        let (path, bytes) = half_raised("killed-again");
        let mut command = program();
        command.arg("recover").arg(&path);
        stop_at(&mut command, stop, 50);
        assert_eq!(command.output().unwrap().status.code(), None, "{stop}");
        assert_eq!(said(&run(&["recover", path.to_str().unwrap()])).1, 0);
        assert!(fs::read(&path).unwrap() == bytes && !journal(&path).exists());
    }
}

/// A raise in the counter's own bytes has two operations: a write and a sync.
#[test]
fn a_raise_in_place_makes_no_journal() {
    let (path, bytes) = (folder("killed-in-place").join("song.mp3"), long_song());
    for (stop, ends) in [(1, None), (2, None), (3, Some(0))] {
        fs::write(&path, &bytes).unwrap();
        let mut command = raising("b", "1", &[&path]);
        stop_at(&mut command, stop, 0);
        assert_eq!(command.output().unwrap().status.code(), ends);
        assert_eq!(fs::read(&path).unwrap() == bytes, stop == 1);
        assert!(!journal(&path).exists());
    }
}

#[test]
fn a_raise_that_did_not_end_is_not_summed_and_is_told() {
    let (path, bytes) = half_raised("half-summed");
    let other = path.with_file_name("other.mp3");
    fs::write(&other, tag(&["b"], 7)).unwrap();
    let folder = path.parent().unwrap();
    let told = "a raise did not end, and streamvault recover puts it back\n";
    let listed = format!("{}: not counted: {told}", path.display());
    let output = run(&["sum", "--csv", folder.to_str().unwrap()]);
    assert_eq!(
        (said(&output), err(&output)),
        (("user,popularimeters,counter\nb,1,7\n".to_string(), 1), listed.clone())
    );
    // also where the file alone is named, or a link to it that stands elsewhere
    let link = common::folder("half-summed-link").join("link.mp3");
    symlink(&path, &link).unwrap();
    for name in [&path, &link] {
        let (out, status) = said(&run(&["sum", name.to_str().unwrap()]));
        assert!(status == 1 && out.ends_with(&format!("{}: not counted: {told}", name.display())), "{out}");
        let output = run(&["list", name.to_str().unwrap()]);
        assert_eq!(output.status.code(), Some(1));
        assert!(err(&output).ends_with(&format!("{}: {told}", name.display())), "{}", err(&output));
    }
    let (out, status) = said(&run(&["sum", "--json", folder.to_str().unwrap()]));
    assert!(status == 1 && out.contains("\"found\": \"journal beside it\"}\n  ],"), "{out}");
    assert!(said(&run(&["recover", link.to_str().unwrap()])).0.starts_with(&format!("{}: put back", link.display())));
    assert_eq!(fs::read(&path).unwrap(), bytes);
    let want = "user,popularimeters,counter\na,1,255\nb,2,4667\n";
    assert_eq!(said(&run(&["sum", "--csv", folder.to_str().unwrap()])), (want.to_string(), 0));
}

#[test]
fn a_journal_without_its_file_is_listed() {
    let (path, _) = half_raised("half-alone");
    fs::remove_file(&path).unwrap();
    let folder = path.parent().unwrap();
    let output = run(&["sum", "--csv", folder.to_str().unwrap()]);
    assert_eq!(said(&output), ("user,popularimeters,counter\n".to_string(), 1));
    let want = format!("{}: a journal of a raise that did not end, without its file\n", journal(&path).display());
    assert_eq!(err(&output), want);
    let (out, status) = said(&run(&["recover", path.to_str().unwrap()]));
    assert!(status == 3 && out.contains(": not readable: No such file"), "{out}");
}

#[test]
fn the_next_raise_puts_back_first() {
    let (path, bytes) = half_raised("half-again");
    let half = fs::read(&path).unwrap();
    let name = path.display();
    // tried only, nothing changes
    let (out, status) = said(&raising("b", "1", &[&path]).arg("--dry-run").output().unwrap());
    let want = format!("{name}: a raise that did not end would be put back; would be raised by 1 from 4660 to 4661\n");
    assert!(status == 0 && out.starts_with(&want), "{out}");
    assert!(fs::read(&path).unwrap() == half && journal(&path).exists());
    // also where the raise itself is refused
    let (out, status) = said(&raise("c", "1", &[&path]));
    assert!(
        status == 1 && out.starts_with(&format!("{name}: a raise that did not end was put back; refused 41: ")),
        "{out}"
    );
    assert!(fs::read(&path).unwrap() == bytes && !journal(&path).exists());

    let (path, bytes) = half_raised("half-again");
    let (out, status) = said(&raise("a", "1", &[&path]));
    let want = "a raise that did not end was put back; raised by 1 from 255 to 256, in a new frame\n";
    assert!(status == 0 && out.starts_with(&format!("{name}: {want}")), "{out}");
    assert!(fs::read(&path).unwrap() == lifted(&bytes, "a", 1) && !journal(&path).exists());

    fs::write(journal(&path), b"streamvault jou").unwrap();
    let (out, status) = said(&raise("a", "1", &[&path]));
    assert!(
        status == 0 && out.starts_with(&format!("{name}: an incomplete journal was removed; raised by 1 ")),
        "{out}"
    );
    assert!(!journal(&path).exists());
}

#[test]
fn a_file_that_changed_since_is_not_put_back() {
    let (path, bytes) = half_raised("half-changed");
    let longer = [&bytes[..], b"more"].concat();
    let mut retagged = bytes.clone();
    retagged[differing(&bytes, &lifted(&bytes, "a", 1)).min().unwrap()] = 0x55;
    for now in [longer, retagged] {
        fs::write(&path, &now).unwrap();
        let unfit = "its journal does not fit the file, which changed since; neither was touched\n";
        let (out, status) = said(&run(&["recover", path.to_str().unwrap()]));
        assert!(status == 3 && out.starts_with(&format!("{}: not put back: {unfit}", path.display())), "{out}");
        assert!(out.ends_with("\n0 files put back, 0 with nothing to put back, 1 not read or written\n"), "{out}");
        let (out, status) = said(&raise("b", "1", &[&path]));
        assert!(status == 3 && out.starts_with(&format!("{}: not raised: {unfit}", path.display())), "{out}");
        assert!(fs::read(&path).unwrap() == now && journal(&path).exists());
    }
}

#[test]
fn what_is_put_back_is_counted() {
    let (path, bytes) = half_raised("half-counted");
    let other = path.with_file_name("other.mp3");
    fs::write(&other, &bytes).unwrap();
    let words = [&path, &other, &path].map(|path| path.to_str().unwrap());
    let (out, status) = said(&program().arg("recover").args(words).output().unwrap());
    let nothing = "no journal, nothing to put back\n";
    let want = format!(
        "{}: put back as it was before a raise that did not end\n{}: {nothing}{}: {nothing}1 file put back, 2 with nothing to put back\n",
        words[0], words[1], words[2]
    );
    assert_eq!((out, status), (want, 0));
}

#[test]
fn a_write_of_a_new_frame_that_fails_or_stops_is_put_back() {
    let (path, bytes) = (folder("raise-moved-unwritten").join("song.mp3"), long_song());
    fs::write(&path, &bytes).unwrap();
    let places = differing(&bytes, &lifted(&bytes, "a", 1));
    for (end, why) in [(0, "its journal: "), (places.start() + 3, ""), (*places.start(), "")] {
        let mut command = raising("a", "1", &[&path]);
        limit(&mut command, end);
        let (out, status) = said(&command.output().unwrap());
        let back = if end == 0 { "" } else { "; put back as it was" };
        let want = format!("{}: not raised: {why}File too large (os error 27){back}\n", path.display());
        assert!(status == 3 && out.starts_with(&want), "{out}");
        assert_eq!(fs::read(&path).unwrap(), bytes);
        assert!(!journal(&path).exists());
    }
}

#[test]
fn two_raises_at_once_both_count() {
    let path = folder("raise-at-once").join("song.mp3");
    // with padding, so that some of them take a new frame
    let mut writer = Writer::new(Version::Id3v24);
    writer.add(b"POPM", &Content::Popularimeter { user: "a", rating: 0, counter: 1 }).unwrap();
    fs::write(&path, writer.finish(20).unwrap()).unwrap();
    let runs: Vec<_> = (0..8).map(|_| raising("a", "100", &[&path]).stdout(Stdio::piped()).spawn().unwrap()).collect();
    for run in runs {
        let (out, status) = said(&run.wait_with_output().unwrap());
        assert_eq!(status, 0, "{out}");
    }
    let want = Content::Popularimeter { user: b"a".to_vec(), rating: 0, counter: 801 };
    assert_eq!(read(&fs::read(&path).unwrap()).unwrap()[0].content, want);
}
