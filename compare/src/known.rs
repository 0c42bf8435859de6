//! The smallest inputs of docs/DIFFERENCES.md: each must show its class and nothing else.
use crate::classes::Class;
use crate::library::Library;
use crate::reads::{settled, Verdict};
use compare::ids::{framed, wrapped};

const TAGS: [(&str, Class); 10] = [
    ("494433040000000000174D4C4C540000000D000000000000000000000408A5C301", Class::TableNoEights),
    ("494433040000000000174D4C4C540000000D000000000000000000000808010203", Class::TableCut),
    ("494433040000000000144D4C4C540000000A00000000000000000000211F", Class::TableWidths),
    ("494433020000000000064D4C4C000000", Class::TableOld),
    ("4944330400000000000C5449504C0000000200000041", Class::People),
    ("4944330400000000000C5449543200000002000003FF", Class::TextEncoding),
    ("4944330400000000000B5458585800000001000000", Class::Undecoded),
    ("4944330400000000000C414243440000000200080102", Class::Compressed),
    ("49443302000000000011504F5000000B0000000000000000000007", Class::LongCounter),
    ("49443302000000000011504F5000000B0000010000000000000000", Class::LongCounter),
];

const LISTS: [(&str, Class); 20] = [
    ("tag 2 0 0 1; raw RVA 41", Class::OldRva),
    ("tag 4 0 0 0; text TIPL 0 41", Class::PeopleWritten),
    ("tag 4 0 0 0; text TIT2 3 FF", Class::TextNotHeld),
    ("tag 4 0 0 0; chapter CHAP - 0 0 0 0; run 41424344000000000100; end", Class::RunNotHeld),
    ("tag 4 0 0 0; chapter CHAP - 0 0 0 0; run 504F504D0000000B00000000000000000000000007; end", Class::RunNotHeld),
    ("tag 4 0 0 0; raw abcd 41", Class::Refused(21)),
    ("tag 4 0 0 0; raw POPM 09", Class::Refused(25)),
    ("tag 4 0 0 0; text TIT2 4 -", Class::Refused(12)),
    ("tag 3 0 0 0; text TIT2 0 410042", Class::Refused(26)),
    ("tag 4 0 0 0; popularimeter POPM 6100 5 1", Class::Refused(27)),
    ("tag 4 0 0 0; contents CTOC 61 0 0 256*-; end", Class::Refused(28)),
    ("tag 4 0 0 0; chapter CHAP - 0 0 0 0; run 00; end", Class::Refused(29)),
    ("tag 4 0 0 0; chapter CHAP - 0 0 0 0; run 504F504D0000000B00000000010000000000000000; end", Class::Refused(29)),
    ("tag 4 0 0 0; table MLLT 0 0 0 0 4 0,5", Class::Refused(30)),
    ("tag 4 0 0 1; table MLLT 0 0 0 4 5 none", Class::Refused(31)),
    ("tag 4 0 0 0; table MLLT 0 0 0 4 4 31,1", Class::Refused(33)),
    ("tag 4 0 0 0; table MLLT 0 0 0 2 2 3,1", Class::Refused(34)),
    ("tag 2 0 0 0; raw ABC -", Class::Refused(22)),
    ("tag 4 0 268435456 0", Class::Refused(24)),
    ("tag 4 0 268435000 0", Class::Refused(20)),
];

/// Asks for each; how many there are, and what is wrong.
pub fn check() -> (usize, Vec<String>) {
    let mut library = Library::new();
    let mut wrong = Vec::new();
    for (hex, class) in TAGS {
        let tag = oracle::unhex(hex).expect("hex");
        judge(hex, class, settled(&mut library, |comparison| comparison.tag(&tag)), &mut wrong);
    }
    let deep = nested(9);
    judge("chapters to depth 9", Class::Depth, settled(&mut library, |comparison| comparison.tag(&deep)), &mut wrong);
    for (text, class) in LISTS {
        let list = oracle::parse_list(text).expect("a list");
        judge(text, class, settled(&mut library, |comparison| comparison.list(&list)), &mut wrong);
    }
    (TAGS.len() + 1 + LISTS.len(), wrong)
}

fn judge(input: &str, class: Class, verdict: Verdict, wrong: &mut Vec<String>) {
    if verdict.unlisted.is_some() || !verdict.listed.contains(&class) {
        wrong.push(format!("{input}: listed {:?}, unlisted {:?}", verdict.listed, verdict.unlisted));
    }
}

// chapters one in another
fn nested(levels: usize) -> Vec<u8> {
    let mut run = Vec::new();
    for _ in 0..levels {
        run = framed(4, b"CHAP", &[&[0; 17], &run[..]].concat());
    }
    wrapped(4, &run)
}
