//! A sum as a table, as comma-separated values and as JSON.

use crate::left::Left;
use crate::parts::Further;
use crate::show;
use crate::sum::{Lack, Problem, Sum};
use std::io::{self, Write};

/// A table for people, then what was not read.
pub fn table(sum: &Sum, out: &mut dyn Write) -> io::Result<()> {
    let counter = width("counter", sum.all.counter);
    let frames = width("popularimeters", sum.all.popularimeters);
    writeln!(out, "{:>counter$}  {:>frames$}  user", "counter", "popularimeters")?;
    for (user, total) in &sum.users {
        let user = show::user(user);
        writeln!(out, "{:>counter$}  {:>frames$}  {user}", total.counter, total.popularimeters)?;
    }
    writeln!(out)?;
    writeln!(out, "in all {} from {} popularimeters", sum.all.counter, sum.all.popularimeters)?;
    writeln!(out, "{} with a tag, {} without", files(sum.tags), sum.without)?;
    if sum.again > 0 {
        writeln!(out, "{} further names of files that are counted once", sum.again)?;
    }
    problems(sum, out)
}

/// How wide a column is: no number in it is larger than that of all users.
fn width(title: &str, largest: impl ToString) -> usize {
    title.len().max(largest.to_string().len())
}

fn files(count: u64) -> String {
    let plural = if count == 1 { "" } else { "s" };
    format!("{count} file{plural}")
}

/// All that may be missing, a line for each.
pub fn problems(sum: &Sum, out: &mut dyn Write) -> io::Result<()> {
    if sum.links > 0 {
        writeln!(out, "{} links to folders not followed", sum.links)?;
    }
    for Problem { path, lack, .. } in &sum.problems {
        writeln!(out, "{}: {}", show::path(path), told(lack))?;
    }
    Ok(())
}

/// What is wrong, and what the sum has nevertheless.
fn told(lack: &Lack) -> String {
    let what = what(lack);
    match lack {
        Lack::Refused { counted, .. } | Lack::Cut { counted, .. } => {
            format!("{what} (popularimeters counted before it: {counted})")
        }
        Lack::Compressed => "a compressed popularimeter, not counted".to_string(),
        Lack::Interrupted => format!("not counted: {what}"),
        _ => what,
    }
}

/// What is wrong.
pub fn what(lack: &Lack) -> String {
    match lack {
        Lack::Refused { refusal, .. } => refusal.to_string(),
        Lack::Cut { promised, there, short, .. } => {
            let short = if *short { ", a frame is short" } else { "" };
            format!("cut: {there} bytes of a tag of {promised} are there{short}")
        }
        Lack::Compressed => "a compressed popularimeter, not read".to_string(),
        Lack::Left(Left::CutHeader(at)) => format!("a frame header at byte {at}, cut by the end of the tag, not read"),
        Lack::Left(Left::Id(id, at)) => format!("the id {id} at byte {at}, after the frames, not read"),
        Lack::Further(Further::Second(at)) => format!("a second tag at byte {at}, not read"),
        Lack::Further(Further::AtEnd(at)) => format!("a tag at the end, its footer at byte {at}, not read"),
        Lack::Interrupted => "a raise did not end, and streamvault recover puts it back".to_string(),
        Lack::JournalAlone => "a journal of a raise that did not end, without its file".to_string(),
        Lack::Elsewhere => "a link to a folder elsewhere, not followed".to_string(),
        Lack::Unreadable(error) => format!("not readable: {error}"),
    }
}

/// A line for each user.
pub fn csv(sum: &Sum, out: &mut dyn Write) -> io::Result<()> {
    writeln!(out, "user,popularimeters,counter")?;
    for (user, total) in &sum.users {
        let user = show::csv_user(user);
        writeln!(out, "{user},{},{}", total.popularimeters, total.counter)?;
    }
    Ok(())
}

/// One object with everything.
pub fn json(sum: &Sum, out: &mut dyn Write) -> io::Result<()> {
    let users = sum.users.iter().map(|(user, total)| {
        let user = show::json(&show::user(user));
        format!(
            "{{\"user\": {user}, \"popularimeters\": {}, \"counter\": \"{}\"}}",
            total.popularimeters, total.counter
        )
    });
    writeln!(out, "{{")?;
    writeln!(out, "  \"users\": {},", list(users))?;
    writeln!(out, "  \"popularimeters\": {},", sum.all.popularimeters)?;
    writeln!(out, "  \"counter\": \"{}\",", sum.all.counter)?;
    writeln!(out, "  \"tags\": {},", sum.tags)?;
    writeln!(out, "  \"without_tag\": {},", sum.without)?;
    writeln!(out, "  \"further_names\": {},", sum.again)?;
    writeln!(out, "  \"links_not_followed\": {},", sum.links)?;
    let named = |name| list(sum.problems.iter().filter_map(move |problem| item(problem, name)));
    for name in ["refused", "cut", "compressed", "behind_frames", "further_tags", "interrupted", "links_elsewhere"] {
        writeln!(out, "  \"{name}\": {},", named(name))?;
    }
    writeln!(out, "  \"unreadable\": {}", named("unreadable"))?;
    writeln!(out, "}}")
}

/// A JSON array, an item in each line.
fn list(items: impl Iterator<Item = String>) -> String {
    let items: Vec<String> = items.map(|item| format!("    {item}")).collect();
    if items.is_empty() {
        return "[]".to_string();
    }
    format!("[\n{}\n  ]", items.join(",\n"))
}

/// A problem as an object, if it belongs in the list of this name.
fn item(problem: &Problem, name: &str) -> Option<String> {
    let (list, fields) = listed(&problem.lack);
    let path = show::json(&show::exact_path(&problem.path));
    (list == name).then(|| format!("{{\"file\": {path}{fields}}}"))
}

/// In which list it belongs, and with which fields.
fn listed(lack: &Lack) -> (&'static str, String) {
    match lack {
        Lack::Refused { refusal, counted } => {
            let (number, meaning) = (refusal.number(), show::json(refusal.meaning()));
            ("refused", format!(", \"number\": {number}, \"meaning\": {meaning}, \"counted_before\": {counted}"))
        }
        Lack::Cut { promised, there, short, counted } => (
            "cut",
            format!(
                ", \"promised\": {promised}, \"there\": {there}, \"short_frame\": {short}, \"counted_before\": {counted}"
            ),
        ),
        Lack::Compressed => ("compressed", String::new()),
        Lack::Left(Left::CutHeader(at)) => ("behind_frames", format!(", \"found\": \"cut frame header\", \"at\": {at}")),
        Lack::Left(Left::Id(id, at)) => ("behind_frames", format!(", \"found\": \"id {id}\", \"at\": {at}")),
        Lack::Further(Further::Second(at)) => ("further_tags", format!(", \"found\": \"second tag\", \"at\": {at}")),
        Lack::Further(Further::AtEnd(at)) => ("further_tags", format!(", \"found\": \"footer at the end\", \"at\": {at}")),
        Lack::Interrupted => ("interrupted", ", \"found\": \"journal beside it\"".to_string()),
        Lack::JournalAlone => ("interrupted", ", \"found\": \"journal without its file\"".to_string()),
        Lack::Elsewhere => ("links_elsewhere", String::new()),
        Lack::Unreadable(error) => ("unreadable", format!(", \"why\": {}", show::json(&error.to_string()))),
    }
}

#[cfg(test)]
mod tests {
    use super::*;
    use crate::sum::Total;

    /// A sum with one of everything.
    fn sample() -> Sum {
        let mut sum = Sum { tags: 3, without: 1, links: 2, ..Sum::default() };
        sum.users.insert(b"a,b".to_vec(), Total { popularimeters: 2, counter: 12_345_678 });
        sum.users.insert(b"\xFF".to_vec(), Total { popularimeters: 1, counter: 5 });
        sum.all = Total { popularimeters: 3, counter: 12_345_683 };
        let refusal = streamvault::header(b"").unwrap_err();
        sum.list("r.mp3", Lack::Refused { refusal, counted: 1 });
        sum.list("r.mp3", Lack::Cut { promised: 70, there: 62, short: false, counted: 1 });
        sum.list("s.mp3", Lack::Cut { promised: 70, there: 70, short: true, counted: 0 });
        sum.list("s.mp3", Lack::Compressed);
        sum.list("s.mp3", Lack::Left(Left::CutHeader(66)));
        sum.list("s.mp3", Lack::Left(Left::Id("POPM", 67)));
        sum.list("t.mp3", Lack::Further(Further::Second(70)));
        sum.list("t.mp3", Lack::Further(Further::AtEnd(700)));
        sum.list("t.mp3", Lack::Interrupted);
        sum.list("j", Lack::JournalAlone);
        sum.list("folder", Lack::Elsewhere);
        sum.list("u.mp3", Lack::Unreadable(io::Error::other("gone")));
        sum
    }

    fn text(print: impl Fn(&Sum, &mut dyn Write) -> io::Result<()>) -> String {
        let mut out = Vec::new();
        print(&sample(), &mut out).unwrap();
        String::from_utf8(out).unwrap()
    }

    const PROBLEMS: &str = r#"2 links to folders not followed
r.mp3: refused 1: fewer than ten bytes, or they do not begin with "ID3" (popularimeters counted before it: 1)
r.mp3: cut: 62 bytes of a tag of 70 are there (popularimeters counted before it: 1)
s.mp3: cut: 70 bytes of a tag of 70 are there, a frame is short (popularimeters counted before it: 0)
s.mp3: a compressed popularimeter, not counted
s.mp3: a frame header at byte 66, cut by the end of the tag, not read
s.mp3: the id POPM at byte 67, after the frames, not read
t.mp3: a second tag at byte 70, not read
t.mp3: a tag at the end, its footer at byte 700, not read
t.mp3: not counted: a raise did not end, and streamvault recover puts it back
j: a journal of a raise that did not end, without its file
folder: a link to a folder elsewhere, not followed
u.mp3: not readable: gone
"#;

    #[test]
    fn the_table() {
        let want = " counter  popularimeters  user
12345678               2  a,b
       5               1  hex:FF

in all 12345683 from 3 popularimeters
3 files with a tag, 1 without
";
        assert_eq!(text(table), format!("{want}{PROBLEMS}"));
    }

    #[test]
    fn the_comma_separated_values() {
        assert_eq!(text(csv), "user,popularimeters,counter\n\"a,b\",2,12345678\nhex:FF,1,5\n");
        assert_eq!(text(problems), PROBLEMS);
    }

    #[test]
    fn the_object() {
        let want = r#"{
  "users": [
    {"user": "a,b", "popularimeters": 2, "counter": "12345678"},
    {"user": "hex:FF", "popularimeters": 1, "counter": "5"}
  ],
  "popularimeters": 3,
  "counter": "12345683",
  "tags": 3,
  "without_tag": 1,
  "further_names": 0,
  "links_not_followed": 2,
  "refused": [
    {"file": "r.mp3", "number": 1, "meaning": "fewer than ten bytes, or they do not begin with \"ID3\"", "counted_before": 1}
  ],
  "cut": [
    {"file": "r.mp3", "promised": 70, "there": 62, "short_frame": false, "counted_before": 1},
    {"file": "s.mp3", "promised": 70, "there": 70, "short_frame": true, "counted_before": 0}
  ],
  "compressed": [
    {"file": "s.mp3"}
  ],
  "behind_frames": [
    {"file": "s.mp3", "found": "cut frame header", "at": 66},
    {"file": "s.mp3", "found": "id POPM", "at": 67}
  ],
  "further_tags": [
    {"file": "t.mp3", "found": "second tag", "at": 70},
    {"file": "t.mp3", "found": "footer at the end", "at": 700}
  ],
  "interrupted": [
    {"file": "t.mp3", "found": "journal beside it"},
    {"file": "j", "found": "journal without its file"}
  ],
  "links_elsewhere": [
    {"file": "folder"}
  ],
  "unreadable": [
    {"file": "u.mp3", "why": "gone"}
  ]
}
"#;
        assert_eq!(text(json), want);
    }
}
