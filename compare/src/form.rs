//! A list of records in the oracle's form, which `oracle write` and `compare write` read, and an edit for `compare edit`.
use crate::classes::Class;
use compare::answers::{Change, Edit};
use compare::ids::version_of;
use compare::plains;
use oracle::{hex, unhex, Fields, List, Record, Subs};

/// The list in one line.
pub fn list(list: &List) -> String {
    let mark = |yes: bool| u8::from(yes);
    let (mode, altered) = (mark(list.unsynchronisation), mark(list.file_altered));
    let mut parts = vec![format!("tag {} {mode} {} {altered}", list.version.minor(), list.padding)];
    for one in &list.records {
        record(one, &mut parts);
    }
    parts.join("; ")
}

fn record(record: &Record, out: &mut Vec<String>) {
    let id = if record.id.bytes().all(|c| c.is_ascii_alphanumeric()) {
        record.id.clone()
    } else {
        format!("x:{}", hex(record.id.as_bytes()))
    };
    match &record.fields {
        Fields::Text { encoding, bytes } => out.push(format!("text {id} {encoding} {}", hex(bytes))),
        Fields::Popularimeter { user, rating, counter } => {
            out.push(format!("popularimeter {id} {} {rating} {counter}", hex(user)));
        }
        Fields::Table { frames, bytes, millis, bits_for_bytes, bits_for_millis, deviations } => {
            let deviations = joined(deviations.iter().map(u32::to_string));
            out.push(format!("table {id} {frames} {bytes} {millis} {bits_for_bytes} {bits_for_millis} {deviations}"));
        }
        Fields::Chapter { element, times: [a, b, c, d], subs } => {
            out.push(format!("chapter {id} {} {a} {b} {c} {d}", hex(element)));
            inside(subs, out);
        }
        Fields::Contents { element, top_level, ordered, children, subs } => {
            let children = joined(children.iter().map(|child| hex(child)));
            let marks = [*top_level, *ordered].map(u8::from);
            out.push(format!("contents {id} {} {} {} {children}", hex(element), marks[0], marks[1]));
            inside(subs, out);
        }
        Fields::Raw { body } => out.push(format!("raw {id} {}", hex(body))),
    }
}

fn inside(subs: &Subs, out: &mut Vec<String>) {
    match subs {
        Subs::Records(records) => records.iter().for_each(|one| record(one, out)),
        Subs::Run(run) => out.push(format!("run {}", hex(run))),
    }
    out.push("end".to_string());
}

fn joined(items: impl Iterator<Item = String>) -> String {
    let all: Vec<String> = items.collect();
    if all.is_empty() {
        "none".to_string()
    } else {
        all.join(",")
    }
}

/// An edit in one line, its record as a list of its own.
pub fn edit(edit: &Edit<Record>) -> String {
    let version = version_of(plains::edition(&edit.tag));
    let alone = |record: &Record| {
        let records = vec![record.clone()];
        list(&List { version, unsynchronisation: false, padding: 0, file_altered: false, records })
    };
    let change = match &edit.change {
        Change::Replace(number, record) => format!("replace {number} '{}'", alone(record)),
        Change::Remove(number) => format!("remove {number}"),
        Change::Append(record) => format!("append '{}'", alone(record)),
        Change::Lift(user, amount) => format!("lift {} {amount}", hex(user)),
    };
    format!("{} {change}", hex(&edit.tag))
}

/// A change from its words.
pub fn change(words: &[&str]) -> Option<Change<Record>> {
    let first = |text: &str| oracle::parse_list(text).ok()?.records.into_iter().next();
    match words {
        ["replace", number, list] => Some(Change::Replace(number.parse().ok()?, first(list)?)),
        ["remove", number] => Some(Change::Remove(number.parse().ok()?)),
        ["append", list] => Some(Change::Append(first(list)?)),
        ["lift", user, amount] => Some(Change::Lift(unhex(user).ok()?, amount.parse().ok()?)),
        _ => None,
    }
}

/// The names of classes.
pub fn classes(classes: &[Class]) -> String {
    let names: Vec<String> = classes.iter().map(|class| class.name()).collect();
    names.join("; ")
}
