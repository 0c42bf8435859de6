//! The names of the refusals are those of the C header and of the library's source, with the same numbers and meanings.

mod common;

use std::collections::BTreeMap;
use std::fs;
use streamvault::Refusal;

/// Numbers and meanings by name.
type Named = BTreeMap<String, (u32, String)>;

fn text(path: &str) -> String {
    let path = common::root().join(path);
    fs::read_to_string(&path).unwrap_or_else(|error| panic!("{}: {error}", path.display()))
}

/// `/// meaning` and in the next line `NAME = 1;`, in the block that makes the constants.
fn in_rust() -> Named {
    let source = text("rust/src/refusal.rs");
    let block = source.split_once("\nnames! {\n").unwrap().1.split_once("\n}\n").unwrap().0;
    let lines: Vec<_> = block.lines().map(str::trim).collect();
    let pairs = lines.chunks_exact(2).map(|pair| {
        let (name, number) = pair[1].strip_suffix(';').unwrap().split_once(" = ").unwrap();
        (name.to_string(), (number.parse().unwrap(), pair[0].strip_prefix("/// ").unwrap().to_string()))
    });
    pairs.collect()
}

/// `#define SV_NAME 1 /* meaning */`, before the words of a header.
fn in_c() -> Named {
    let header = text("include/streamvault.h");
    let block = header.split_once("/* Refusals, in the tag header. */").unwrap().1;
    let block = block.split_once("/* ---- the words of a header */").unwrap().0;
    let lines = block.lines().filter_map(|line| line.strip_prefix("#define SV_"));
    let named = lines.map(|line| {
        let (front, meaning) = line.strip_suffix(" */").unwrap().split_once(" /* ").unwrap();
        let (name, number) = front.trim().split_once(' ').unwrap();
        (name.to_string(), (number.trim().parse().unwrap(), meaning.to_string()))
    });
    named.collect()
}

/// `pub const NAME: Refusal = Refusal { number: 1 };`
fn in_the_library() -> BTreeMap<String, u32> {
    let source = text("crates/format/src/refusals.rt");
    let lines = source.lines().filter_map(|line| line.strip_prefix("pub const "));
    let named = lines.map(|line| {
        let (name, number) = line.strip_suffix(" };").unwrap().split_once(": Refusal = Refusal { number: ").unwrap();
        (name.to_string(), number.parse().unwrap())
    });
    named.collect()
}

#[test]
fn names_numbers_and_meanings_agree() {
    let rust = in_rust();
    assert_eq!(rust, in_c());
    let numbers: BTreeMap<_, _> = rust.into_iter().map(|(name, (number, _))| (name, number)).collect();
    assert_eq!(numbers, in_the_library());
    assert_eq!(numbers.len(), Refusal::ALL.len());
}

#[test]
fn each_prints_its_meaning() {
    let mut meant: Vec<_> = in_c().into_values().collect();
    meant.sort();
    let printed: Vec<_> = Refusal::ALL.iter().map(|refusal| refusal.to_string()).collect();
    let want: Vec<_> = meant.iter().map(|(number, meaning)| format!("refused {number}: {meaning}")).collect();
    assert_eq!(printed, want);
}

/// The table of docs/SCOPE.md has each number, and no other.
#[test]
fn the_scope_has_each_number() {
    let scope = text("docs/SCOPE.md");
    let table = scope.split_once("\n## Refusal numbers\n").unwrap().1.split_once("\n## ").unwrap().0;
    let cells = table.lines().filter_map(|line| line.strip_prefix("| ")?.split_once(" |"));
    let mut numbers: Vec<u32> = cells.filter_map(|(number, _)| number.parse().ok()).collect();
    numbers.sort();
    numbers.dedup();
    assert_eq!(numbers, Refusal::ALL.iter().map(|refusal| refusal.number()).collect::<Vec<_>>());
}

#[test]
fn the_names_are_constants() {
    assert_eq!(Refusal::NO_TAG.number(), 1);
    assert_eq!(Refusal::WORK_TOO_SMALL.number(), 14);
    assert_eq!(Refusal::NO_ROOM.number(), 20);
    assert_eq!(Refusal::ODD_REFERENCES.number(), 34);
    assert_eq!(Refusal::COUNTER_TOO_LARGE.number(), 35);
    assert_eq!(Refusal::NOT_PLAIN.number(), 40);
    assert_eq!(Refusal::COUNTER_TOO_SHORT.number(), 44);
    assert_eq!(Refusal::NO_SUCH_FRAME.number(), 46);
    let is_about_tables = |refusal| matches!(refusal, Refusal::WRONG_WIDTH | Refusal::WIDTHS_NOT_IN_FOURS);
    assert!(is_about_tables(Refusal::WRONG_WIDTH) && !is_about_tables(Refusal::ENCRYPTED));
}
