//! The text forms: a reading as lines, a list of records as lines.
use crate::ask::{Failure, Item, Kind, Reading, Stop};
use crate::put::{Fields, List, Record, Subs, Unwritten};
use id3::Version;
use std::fmt::Write;

/// Upper-case hex, a dash for no bytes.
pub fn hex(bytes: &[u8]) -> String {
    if bytes.is_empty() {
        return "-".to_string();
    }
    let mut out = String::with_capacity(bytes.len() * 2);
    for byte in bytes {
        let _ = write!(out, "{byte:02X}");
    }
    out
}

/// The bytes of hex, spaces left out; `-` is none, and `3*FF` is FF FF FF.
pub fn unhex(text: &str) -> Result<Vec<u8>, String> {
    let text: String = text.chars().filter(|c| !c.is_whitespace()).collect();
    if let Some((count, part)) = text.split_once('*') {
        let count: usize = number(count)?;
        return Ok(unhex(part)?.repeat(count));
    }
    if text == "-" {
        return Ok(Vec::new());
    }
    if !text.is_ascii() || text.len() % 2 != 0 {
        return Err(format!("not hex: {text:.40}"));
    }
    (0..text.len())
        .step_by(2)
        .map(|i| u8::from_str_radix(&text[i..i + 2], 16).map_err(|_| format!("not hex: {text:.40}")))
        .collect()
}

/// An error in one line.
pub fn failure_line(failure: &Failure) -> String {
    format!("number {} kind {} said {:?}", failure.number, failure.kind, failure.description)
}

/// A reading, a line for each item.
pub fn lines(reading: &Reading) -> Vec<String> {
    let mut out = Vec::new();
    match &reading.header {
        Ok(h) => out.push(format!(
            "tag 2.{} size {} flags {:02X} ext {} start {} end {}",
            h.edition, h.size, h.flags, h.ext, h.start, h.end
        )),
        Err(failure) => out.push(format!("header refused {}", failure_line(failure))),
    }
    for item in &reading.items {
        item_lines(item, &mut out);
    }
    match &reading.stop {
        None => {}
        Some(Stop::End { at, left }) => out.push(format!("stop end at {at} left {left}")),
        Some(Stop::Refused { at, id, content, failure, .. }) => {
            let level = if *content { "content" } else { "frame" };
            out.push(format!("stop refused at {at} id {} level {level} {}", hex(id), failure_line(failure)));
        }
        Some(Stop::Panic { at, message }) => out.push(format!("stop panic at {at} said {message:?}")),
        Some(Stop::Stack { levels }) => out.push(format!("stop stack levels {levels}")),
    }
    for doubt in &reading.doubts {
        out.push(format!("doubt {doubt}"));
    }
    out
}

fn item_lines(item: &Item, out: &mut Vec<String>) {
    let path: Vec<String> = item.path.iter().map(|n| n.to_string()).collect();
    let (fields, subs) = fields_of(&item.kind);
    out.push(format!(
        "frame {} at {} took {} said {} id {} named {} flags {:04X} body {} {}",
        path.join("."),
        item.at,
        item.took,
        item.said,
        hex(&item.id),
        hex(item.named.as_bytes()),
        item.flags,
        hex(&item.body),
        fields
    ));
    for sub in subs {
        item_lines(sub, out);
    }
}

fn listed<T>(items: &[T], form: impl Fn(&T) -> String) -> String {
    if items.is_empty() {
        return "none".to_string();
    }
    items.iter().map(form).collect::<Vec<_>>().join(",")
}

fn counted(subs: &Option<Vec<Item>>) -> String {
    match subs {
        Some(subs) => subs.len().to_string(),
        None => "unlisted".to_string(),
    }
}

fn fields_of(kind: &Kind) -> (String, &[Item]) {
    let mut subframes: &[Item] = &[];
    let text = match kind {
        Kind::Text { encoding, bytes, .. } => format!("text encoding {encoding} bytes {}", hex(bytes)),
        Kind::Popularimeter { user, rating, counter } => {
            format!("popularimeter user {} rating {rating} counter {counter}", hex(user))
        }
        Kind::Table { frames, bytes, millis, bits_for_bytes, bits_for_millis, deviations } => format!(
            "table frames {frames} bytes {bytes} millis {millis} widths {bits_for_bytes} {bits_for_millis} deviations {}",
            listed(deviations, |d| d.to_string())
        ),
        Kind::Chapter { element, times, run, subs } => {
            subframes = subs.as_deref().unwrap_or(&[]);
            format!(
                "chapter element {} times {} {} {} {} run {} subs {}",
                hex(element),
                times[0],
                times[1],
                times[2],
                times[3],
                hex(run),
                counted(subs)
            )
        }
        Kind::Contents { element, top_level, ordered, children, run, subs } => {
            subframes = subs.as_deref().unwrap_or(&[]);
            format!(
                "contents element {} top {} ordered {} children {} run {} subs {}",
                hex(element),
                u8::from(*top_level),
                u8::from(*ordered),
                listed(children, |c| hex(c)),
                hex(run),
                counted(subs)
            )
        }
        Kind::Raw => "raw".to_string(),
        Kind::Other(name) => format!("other {name}"),
        Kind::Refused(failure) => format!("refused {}", failure_line(failure)),
    };
    (text, subframes)
}

/// What writing answered, in one line.
pub fn written_line(answer: &Result<Vec<u8>, Unwritten>) -> String {
    match answer {
        Ok(tag) => format!("ok {}", hex(tag)),
        Err(Unwritten::NotHeld(why)) => format!("not-held {why:?}"),
        Err(Unwritten::Refused(failure)) => format!("refused {}", failure_line(failure)),
        Err(Unwritten::Panic(message)) => format!("panic said {message:?}"),
    }
}

fn number<T: std::str::FromStr>(text: &str) -> Result<T, String> {
    text.parse().map_err(|_| format!("not a number here: {text:.40}"))
}

fn flag(text: &str) -> Result<bool, String> {
    match text {
        "0" => Ok(false),
        "1" => Ok(true),
        _ => Err(format!("not 0 or 1: {text:.40}")),
    }
}

/// `none`, or items between commas, of which `3*X` is three.
fn list<T: Clone>(text: &str, form: impl Fn(&str) -> Result<T, String>) -> Result<Vec<T>, String> {
    let mut out = Vec::new();
    if text == "none" {
        return Ok(out);
    }
    for part in text.split(',') {
        let (count, one) = match part.split_once('*') {
            Some((count, one)) => (number(count)?, one),
            None => (1usize, part),
        };
        let item = form(one)?;
        out.extend(std::iter::repeat(item).take(count));
    }
    Ok(out)
}

/// An id as characters, or as `x:` and hex.
fn id(text: &str) -> Result<String, String> {
    match text.strip_prefix("x:") {
        Some(bytes) => String::from_utf8(unhex(bytes)?).map_err(|_| "an id that is not UTF-8".to_string()),
        None => Ok(text.to_string()),
    }
}

/// A list of records, a line or a part between semicolons for each:
///
/// ```text
/// tag EDITION UNSYNCHRONISATION PADDING ALTERED
/// text ID ENCODING HEX
/// popularimeter ID USER RATING COUNTER
/// table ID FRAMES BYTES MILLIS WIDTH WIDTH DEVIATIONS
/// chapter ID ELEMENT START END STARTOFFSET ENDOFFSET
/// contents ID ELEMENT TOP ORDERED CHILDREN
/// raw ID HEX
/// ```
///
/// A chapter and a table of contents go on with their subframes, or with one `run HEX`, until `end`.
pub fn parse_list(text: &str) -> Result<List, String> {
    let mut parts = text.split(['\n', ';']).map(str::trim).filter(|part| !part.is_empty());
    let first: Vec<&str> = parts.next().unwrap_or("").split_whitespace().collect();
    let ["tag", edition, unsynchronisation, padding, altered] = first[..] else {
        return Err("the first part is: tag EDITION UNSYNCHRONISATION PADDING ALTERED".to_string());
    };
    let version = match edition {
        "2" => Version::Id3v22,
        "3" => Version::Id3v23,
        "4" => Version::Id3v24,
        _ => return Err(format!("no edition: {edition:.40}")),
    };
    let (records, closed) = records(&mut parts)?;
    if closed {
        return Err("an end without its beginning".to_string());
    }
    let Subs::Records(records) = records else {
        return Err("a run outside a chapter".to_string());
    };
    Ok(List {
        version,
        unsynchronisation: flag(unsynchronisation)?,
        padding: number(padding)?,
        file_altered: flag(altered)?,
        records,
    })
}

fn inside<'a>(parts: &mut impl Iterator<Item = &'a str>) -> Result<Subs, String> {
    match records(parts)? {
        (subs, true) => Ok(subs),
        (_, false) => Err("a chapter without its end".to_string()),
    }
}

fn records<'a>(parts: &mut impl Iterator<Item = &'a str>) -> Result<(Subs, bool), String> {
    let mut found = Vec::new();
    let mut run = None;
    let mut closed = false;
    while let Some(part) = parts.next() {
        let words: Vec<&str> = part.split_whitespace().collect();
        let (name, fields) = match words[..] {
            ["end"] => {
                closed = true;
                break;
            }
            ["run", bytes] => {
                run = Some(unhex(bytes)?);
                continue;
            }
            ["text", name, encoding, bytes] => {
                (name, Fields::Text { encoding: number(encoding)?, bytes: unhex(bytes)? })
            }
            ["popularimeter", name, user, rating, counter] => (
                name,
                Fields::Popularimeter { user: unhex(user)?, rating: number(rating)?, counter: number(counter)? },
            ),
            ["table", name, frames, bytes, millis, v, w, deviations] => (
                name,
                Fields::Table {
                    frames: number(frames)?,
                    bytes: number(bytes)?,
                    millis: number(millis)?,
                    bits_for_bytes: number(v)?,
                    bits_for_millis: number(w)?,
                    deviations: list(deviations, number)?,
                },
            ),
            ["chapter", name, element, a, b, c, d] => (
                name,
                Fields::Chapter {
                    element: unhex(element)?,
                    times: [number(a)?, number(b)?, number(c)?, number(d)?],
                    subs: inside(parts)?,
                },
            ),
            ["contents", name, element, top, ordered, children] => (
                name,
                Fields::Contents {
                    element: unhex(element)?,
                    top_level: flag(top)?,
                    ordered: flag(ordered)?,
                    children: list(children, unhex)?,
                    subs: inside(parts)?,
                },
            ),
            ["raw", name, bytes] => (name, Fields::Raw { body: unhex(bytes)? }),
            _ => return Err(format!("not a record: {part:.60}")),
        };
        found.push(Record { id: id(name)?, fields });
    }
    match run {
        None => Ok((Subs::Records(found), closed)),
        Some(run) if found.is_empty() => Ok((Subs::Run(run), closed)),
        Some(_) => Err("a run and records beside it".to_string()),
    }
}
