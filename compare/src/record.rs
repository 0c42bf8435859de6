//! Chooses questions that cover every branch, and writes them with the crate's answers, for a program of the port to replay.
//!
//!     record STDIN STDOUT [SEED]
//!
//! A question is a length of the work buffer, the tag's length, four bytes each and highest first, and the tag. Its answer is
//! the line `case N` and the lines of the listing. Tags to which a listed difference applies are not among them.
use compare::ids::kind_of;
use compare::listing;
use compare::sources::{shorts, Source};
use oracle::{Item, Kind, Reading, Stop};
use std::collections::BTreeMap;
use std::io::Write;

/// Tags that are looked through.
const LOOKED: u64 = 1_500_000;
/// Questions that are kept.
const KEPT: usize = 3500;
/// The longest tag that is kept.
const LONGEST: usize = 600;
/// The number of the first question.
const FIRST: usize = 1;

fn main() {
    oracle::quiet();
    let words: Vec<String> = std::env::args().skip(1).collect();
    let [stdin, stdout, seed @ ..] = &words[..] else {
        eprintln!("record STDIN STDOUT [SEED]");
        std::process::exit(2);
    };
    let seed = seed.first().map_or(1, |text| text.parse().expect("a seed is a number"));
    let kept = oracle::big_stack(move || chosen(seed));
    let (questions, answers) = laid_out(&kept);
    std::fs::write(stdin, &questions).expect("the questions can be written");
    std::fs::write(stdout, &answers).expect("the answers can be written");
    println!("{} questions, {} bytes; answers, {} bytes", kept.len(), questions.len(), answers.len());
}

/// The smallest tags, by branch.
type Found = BTreeMap<String, Vec<u8>>;

/// The smallest tag of each rough branch, and, spread over all of them, of fine branches by one and by two frames.
fn chosen(seed: u64) -> Vec<Vec<u8>> {
    let mut found = [Found::new(), Found::new(), Found::new()];
    for source in sources(seed) {
        let mut tag = Vec::new();
        for index in 0..source.count() {
            source.tag(index, &mut tag);
            look(&mut found, &tag);
        }
    }
    let [rough, one, two] = found.map(|found| found.into_values().collect::<Vec<_>>());
    println!("{} rough branches, {} by one frame, {} by two", rough.len(), one.len(), two.len());
    let mut kept = spread(&rough, KEPT);
    let left = KEPT - kept.len();
    kept.extend(spread(&one, left / 2));
    kept.extend(spread(&two, left - left / 2));
    kept.sort();
    kept.dedup();
    kept
}

/// At most so many of these, from all places.
fn spread(all: &[Vec<u8>], most: usize) -> Vec<Vec<u8>> {
    let kept = all.len().min(most);
    (0..kept).map(|i| all[i * all.len() / kept].clone()).collect()
}

fn sources(seed: u64) -> Vec<Source> {
    let mut out = vec![Source::Generated { seed, count: LOOKED }, Source::cuts(seed, 500)];
    out.extend(shorts(1));
    out
}

fn look(found: &mut [Found; 3], tag: &[u8]) {
    if tag.len() > LONGEST {
        return;
    }
    let reading = oracle::read_past(tag);
    let branches = [rough(&reading, tag.len()), branch(&reading, 1), branch(&reading, 2)];
    let smaller = |found: &Found, branch: &String| found.get(branch).is_none_or(|other| tag.len() < other.len());
    let wanted = found.iter().zip(&branches).any(|(found, branch)| smaller(found, branch));
    if !wanted || listing::lines(tag).is_none() {
        return;
    }
    for (found, branch) in found.iter_mut().zip(branches) {
        if smaller(found, &branch) {
            found.insert(branch, tag.to_vec());
        }
    }
}

/// Edition, tag flags, the first frame's kind, flags and mark, and how it ended.
fn rough(reading: &Reading, len: usize) -> String {
    let header = match &reading.header {
        Ok(header) => header,
        Err(failure) => return format!("header {} {}", failure.number, len.min(17)),
    };
    let mut out = format!("{} {:02X}", header.edition, header.flags & 0xC0);
    if let Some(item) = reading.items.first() {
        let flags = item.flags & if header.edition == 4 { 3 } else { 0x80 };
        out += &format!("; {} {flags} {}", kind_name(&item.kind), listing::is_short(item));
        if let Kind::Refused(failure) = &item.kind {
            out += &format!(" {} {:?}", failure.number, kind_of(header.edition, &item.id));
        }
    }
    out += &match &reading.stop {
        Some(Stop::Refused { failure, .. }) => format!("; {} refused {}", reading.items.len().min(1), failure.number),
        _ => format!("; {} end", reading.items.len().min(2)),
    };
    out
}

/// What was met on the way, in words: edition, flags, the first so many frames and the end.
fn branch(reading: &Reading, frames: usize) -> String {
    let header = match &reading.header {
        Ok(header) => header,
        Err(failure) => return format!("0 header {}", failure.number),
    };
    let shown = reading.items.iter().take_while(|item| !matches!(item.kind, Kind::Refused(_))).count();
    let mut out = format!("{} {:02X} {}", header.edition, header.flags & 0xC0, size_class(header.ext as usize));
    for item in reading.items.iter().take(frames) {
        out += &format!("; {}", frame_branch(item, header.edition));
    }
    out += &format!("; {} ", shown.min(frames + 1));
    out += &match &reading.stop {
        Some(Stop::End { left, .. }) => format!("end {}", size_class(*left)),
        Some(Stop::Refused { failure, .. }) => format!("refused {}", failure.number),
        _ => "none".to_string(),
    };
    out
}

fn frame_branch(item: &Item, edition: u8) -> String {
    let flags = item.flags & if edition == 4 { 3 } else { 0x80 };
    let short = listing::is_short(item);
    let kind = kind_branch(&item.kind, &item.body);
    format!("{kind} {flags} {short} {}", item.id.is_ascii())
}

fn kind_branch(kind: &Kind, body: &[u8]) -> String {
    match kind {
        Kind::Text { encoding, bytes, .. } => {
            format!("text {encoding} {} {}", size_class(bytes.len()), body.len() - 1 - bytes.len())
        }
        Kind::Popularimeter { user, counter, .. } => {
            let held = (body.len() - user.len() - 2).min(9);
            format!("popularimeter {} {held} {}", user.is_empty(), 64 - counter.leading_zeros() > 32)
        }
        Kind::Table { bits_for_bytes, bits_for_millis, deviations, .. } => {
            format!("table {} {} {}", bits_for_bytes / 8, bits_for_millis / 8, size_class(deviations.len()))
        }
        Kind::Chapter { subs, .. } => format!("chapter {}", subs_branch(subs)),
        Kind::Contents { children, subs, .. } => {
            format!("contents {} {}", size_class(children.len()), subs_branch(subs))
        }
        Kind::Raw => format!("raw {}", size_class(body.len())),
        Kind::Other(name) => (*name).to_string(),
        Kind::Refused(failure) => format!("refused {} {:?}", failure.number, body.first().map(|b| (*b).min(4))),
    }
}

/// How deep the subframes go, and of what kinds the first ones are.
fn subs_branch(subs: &Option<Vec<Item>>) -> String {
    let subs = subs.as_deref().unwrap_or(&[]);
    let kinds: Vec<&str> = subs.iter().take(2).map(|sub| kind_name(&sub.kind)).collect();
    format!("{} {}", depth(subs), kinds.join("+"))
}

fn depth(items: &[Item]) -> usize {
    let inside = items.iter().map(|item| match &item.kind {
        Kind::Chapter { subs, .. } | Kind::Contents { subs, .. } => depth(subs.as_deref().unwrap_or(&[])),
        _ => 0,
    });
    inside.max().map_or(0, |deepest| 1 + deepest)
}

fn kind_name(kind: &Kind) -> &'static str {
    match kind {
        Kind::Text { .. } => "text",
        Kind::Popularimeter { .. } => "popularimeter",
        Kind::Table { .. } => "table",
        Kind::Chapter { .. } => "chapter",
        Kind::Contents { .. } => "contents",
        Kind::Raw | Kind::Other(_) => "raw",
        Kind::Refused(_) => "refused",
    }
}

fn size_class(n: usize) -> usize {
    match n {
        0..=2 => n,
        3..=9 => 3,
        10..=127 => 4,
        _ => 5,
    }
}

fn laid_out(tags: &[Vec<u8>]) -> (Vec<u8>, Vec<u8>) {
    let mut questions = Vec::new();
    let mut answers = Vec::new();
    for (n, tag) in tags.iter().enumerate() {
        // unsynchronised chapters in chapters need room for each of eight levels
        questions.extend((8 * tag.len() as u32).to_be_bytes());
        questions.extend((tag.len() as u32).to_be_bytes());
        questions.extend(tag);
        let _ = writeln!(answers, "case {}", FIRST + n);
        answers.extend(listing::lines(tag).expect("it had lines when it was chosen"));
    }
    (questions, answers)
}
