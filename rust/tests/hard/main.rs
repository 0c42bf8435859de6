//! Hard use of the C interface: random and damaged tags, words that no call leaves, buffers of every small length.
//!
//! Every buffer lies beside pages that may not be touched. Every answer is held against the rules of the interface, and
//! every buffer against what a call may change. The numbers are the same in each run; `STREAMVAULT_HARD_CASES` says how many
//! cases there are (50,000 if it does not), `STREAMVAULT_HARD_FROM` with which the run begins.

#[path = "../common/mod.rs"]
mod common;
mod editing;
mod fence;
mod metering;
mod raising;
mod reading;
mod tags;
mod words;
mod writing;

use common::{setting, Case, Numbers};
use fence::Fenced;
use std::collections::BTreeSet;
use streamvault::sys::SV_END;

/// What each function may answer, apart from the number that a refused reader keeps. 32 cannot be met, since no width is
/// over 32.
const HEADERS: &[u32] = &[0, 1, 2, 3, 4, 5, 6, 20];
const OPENS: &[u32] = &[0, 1, 2, 3, 4, 5, 6, 14, 20];
const STEPS: &[u32] = &[0, SV_END, 2, 5, 7, 8, 9, 10, 11, 12, 13, 14, 20, 30, 31, 35];
const BEGINS: &[u32] = &[0, 2, 20];
const ADDS: &[u32] = &[0, 2, 12, 20, 21, 22, 23, 24, 25, 26, 27, 28, 29, 30, 31, 33, 34];
const FINISHES: &[u32] = &[0, 2, 20, 24];
const REFERENCES: &[u32] = &[0, 20, 21, 30];
const RAISES: &[u32] = &[0, 1, 2, 3, 4, 5, 6, 7, 8, 9, 10, 11, 12, 13, 20, 30, 31, 35, 40, 41, 42, 43, 44];
const EDITS: &[u32] =
    &[0, 1, 2, 3, 4, 5, 6, 7, 8, 9, 10, 11, 12, 13, 20, 21, 22, 23, 24, 25, 26, 27, 28, 29, 30, 31, 33, 34, 35, 40, 46];
const LIFTS: &[u32] = &[0, 1, 2, 3, 4, 5, 6, 7, 8, 9, 10, 11, 12, 13, 20, 23, 30, 31, 35, 40, 41, 42, 43];

/// What only bodies of 2^24 and 2^28 bytes are answered, which are not made here.
const NOT_MET: [(&str, u32); 5] = [("add", 23), ("add", 24), ("edit", 23), ("edit", 24), ("lift", 23)];

/// How many cases there are, if nothing else is said.
const CASES: u64 = 50_000;

/// The variable that says with which case a run begins.
const FROM: &str = "STREAMVAULT_HARD_FROM";

#[test]
fn hard_use() {
    let from = setting(FROM, 0);
    let cases = setting("STREAMVAULT_HARD_CASES", CASES);
    let mut buffers = Buffers::new();
    for number in from..from + cases {
        let _case = Case { number, from: FROM };
        let mut numbers = Numbers(number.wrapping_mul(0x1000_0000_01B3));
        match number % 20 {
            0 | 1 => buffers.reading(&mut numbers),
            2 => buffers.step_from_any_words(&mut numbers),
            3 => buffers.header(&mut numbers),
            4 => buffers.begin(&mut numbers),
            5 => buffers.add(&mut numbers),
            6 => buffers.finish(&mut numbers),
            7 => buffers.references(&mut numbers),
            8..=10 => buffers.metering(&mut numbers),
            11 => buffers.meter_from_any_words(&mut numbers),
            12..=14 => buffers.raising(&mut numbers),
            15..=17 => buffers.editing(&mut numbers),
            _ => buffers.lifting(&mut numbers),
        }
    }
    if cases >= CASES {
        buffers.all_was_met();
    }
}

#[test]
fn what_is_accepted_is_read_back() {
    let cases = setting("STREAMVAULT_HARD_CASES", CASES) / 40;
    for number in 0..cases {
        let _case = Case { number, from: FROM };
        tags::there_and_back(&mut Numbers(number ^ 0xBAC4));
    }
}

// ---- buffers and calls

/// A buffer for each parameter; `state` holds the words of a header, a reader, a meter or a writer.
struct Buffers {
    tag: Fenced<u8>,
    work: Fenced<u8>,
    output: Fenced<u8>,
    name: Fenced<u8>,
    names: Fenced<u8>,
    rest: Fenced<u8>,
    deviations: Fenced<u32>,
    state: Fenced<u64>,
    record: Fenced<u64>,
    metered: Fenced<u64>,
    count: Fenced<u64>,
    /// Every answer that was met, by the function's name.
    met: BTreeSet<(&'static str, u32)>,
}

impl Buffers {
    fn new() -> Buffers {
        Buffers {
            tag: Fenced::new(),
            work: Fenced::new(),
            output: Fenced::new(),
            name: Fenced::new(),
            names: Fenced::new(),
            rest: Fenced::new(),
            deviations: Fenced::new(),
            state: Fenced::new(),
            record: Fenced::new(),
            metered: Fenced::new(),
            count: Fenced::new(),
            met: BTreeSet::new(),
        }
    }

    /// Notes an answer, which has to be one that the function may give.
    fn meet(&mut self, name: &'static str, may: &[u32], answer: u32) {
        assert!(may.contains(&answer), "{name} answered {answer}");
        self.met.insert((name, answer));
    }

    /// Every answer was met: the cases are not all of one sort.
    fn all_was_met(&self) {
        let functions = [
            ("header", HEADERS),
            ("open", OPENS),
            ("step", STEPS),
            ("meter_open", OPENS),
            ("meter_next", STEPS),
            ("begin", BEGINS),
            ("add", ADDS),
            ("finish", FINISHES),
            ("references", REFERENCES),
            ("raise", RAISES),
            ("edit", EDITS),
            ("lift", LIFTS),
        ];
        for (name, may) in functions {
            let wanted = may.iter().map(|answer| (name, *answer)).filter(|case| !NOT_MET.contains(case));
            let missing: Vec<_> = wanted.filter(|case| !self.met.contains(case)).collect();
            assert!(missing.is_empty(), "not met: {missing:?}");
        }
    }
}
