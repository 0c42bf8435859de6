//! Lists of records for writing, mostly ones that are accepted.
use crate::frames::Frames;
use crate::ids::{framed, version_of};
use crate::rng::Rng;
use crate::tags;
use crate::texts;
use oracle::{Fields, List, Record, Subs};

const TEXTS3: [&str; 9] = ["TT2", "TP1", "TCO", "TYE", "TZZ", "TLE", "TEN", "TSI", "T00"];
const TEXTS4: [&str; 10] = ["TIT2", "TPE1", "TALB", "TCOM", "TIPL", "TMCL", "TLEN", "TENC", "TZZZ", "T000"];
const RAWS3: [&str; 20] = [
    "ABC", "XYZ", "000", "TXX", "COM", "PIC", "UFI", "WAR", "CNT", "BUF", "CRM", "RVA", "CRA", "ETC", "EQU", "SLT",
    "STC", "IPL", "RVR", "A1B",
];
const RAWS4: [&str; 22] = [
    "ABCD", "XYZ1", "0000", "TXXX", "COMM", "APIC", "UFID", "WOAR", "PCNT", "GRP1", "PRIV", "RVA2", "RVAD", "AENC",
    "ETCO", "EQUA", "POSS", "SYLT", "SYTC", "IPLS", "EQU2", "SEEK",
];
// of another kind, another edition, or no id
const WRONG: [&str; 14] =
    ["abcd", "ab ", "TT2", "TIT2", "POP", "POPM", "MLLT", "MLL", "CHAP", "CTOC", "AB", "A\u{e9}1", "TXXX", "T\u{e9}"];

/// A 2.2 body of the greatest length, and of one byte more.
pub fn long() -> [List; 2] {
    [(1 << 24) - 1, 1 << 24].map(|len| List {
        version: version_of(2),
        unsynchronisation: false,
        padding: 0,
        file_altered: false,
        records: vec![Record { id: "ABC".to_string(), fields: Fields::Raw { body: vec![0x41; len] } }],
    })
}

/// The list of a case.
pub fn list(seed: u64, index: u64) -> List {
    let mut rng = Rng::at(seed, index);
    let edition = rng.between(2, 4) as u8;
    let unsynchronisation = rng.one_in(2);
    let file_altered = rng.one_in(4);
    let padding = padding(&mut rng);
    let mut maker = Maker { rng, edition };
    let records = maker.records(&[0, 1, 1, 1, 2, 2, 3, 5], 1);
    List { version: version_of(edition), unsynchronisation, padding, file_altered, records }
}

/// A record of an edition, of any kind.
pub fn record(rng: Rng, edition: u8) -> Record {
    Maker { rng, edition }.record(1)
}

fn padding(rng: &mut Rng) -> usize {
    const FAR: [usize; 5] = [(1 << 28) - 1, 1 << 28, (1 << 28) - 40, (1 << 32) + 5, usize::MAX];
    match rng.below(200) {
        0 => rng.pick(&FAR),
        1..=99 => 0,
        _ => rng.below(40),
    }
}

struct Maker {
    rng: Rng,
    edition: u8,
}

impl Maker {
    fn records(&mut self, counts: &[usize], depth: usize) -> Vec<Record> {
        let n = self.rng.pick(counts);
        (0..n).map(|_| self.record(depth)).collect()
    }

    fn record(&mut self, depth: usize) -> Record {
        let kinds = if self.edition == 2 { 8 } else { 12 };
        let (id, fields) = match self.rng.below(kinds) {
            0..=2 => self.text(),
            3 | 4 => self.popularimeter(),
            5 | 6 => self.raw(),
            7 => self.table(),
            8 | 9 => self.chapter(depth),
            10 => self.contents(depth),
            _ => self.popularimeter(),
        };
        let id = if self.rng.one_in(40) { self.rng.pick(&WRONG) } else { id };
        Record { id: id.to_string(), fields }
    }

    fn named(&self, three: &'static str, four: &'static str) -> &'static str {
        if self.edition == 2 {
            three
        } else {
            four
        }
    }

    // a zero in a name once in a while
    fn name(&mut self) -> Vec<u8> {
        let mut name = self.rng.name(5);
        if self.rng.one_in(40) {
            name.push(0);
        }
        name
    }

    fn text(&mut self) -> (&'static str, Fields) {
        let id = if self.edition == 2 { self.rng.pick(&TEXTS3) } else { self.rng.pick(&TEXTS4) };
        let encoding = if self.rng.one_in(60) { self.rng.byte() } else { self.rng.below(4) as u8 };
        let mut bytes = texts::text(&mut self.rng, encoding);
        if self.rng.one_in(20) {
            bytes.extend(vec![0; self.rng.between(1, 3)]);
        }
        (id, Fields::Text { encoding, bytes })
    }

    fn popularimeter(&mut self) -> (&'static str, Fields) {
        let counter = match self.rng.below(4) {
            0 => self.rng.pick(&[0, 1, 255, 256, 65280, 0xFFFF_FFFF, 0x1_0000_0000, u64::MAX]),
            _ => self.rng.number() >> self.rng.below(64),
        };
        let fields = Fields::Popularimeter { user: self.name(), rating: self.rng.byte(), counter };
        (self.named("POP", "POPM"), fields)
    }

    fn raw(&mut self) -> (&'static str, Fields) {
        let id = if self.edition == 2 { self.rng.pick(&RAWS3) } else { self.rng.pick(&RAWS4) };
        let body = if self.rng.one_in(12) {
            let len = tags::large_len(&mut self.rng);
            self.rng.filled(len)
        } else {
            self.rng.bytes(24)
        };
        (id, Fields::Raw { body })
    }

    fn table(&mut self) -> (&'static str, Fields) {
        let (a, b) = self.widths();
        let mut deviations = Vec::new();
        for _ in 0..self.rng.below(6) {
            deviations.extend([self.deviation(a), self.deviation(b)]);
        }
        if self.rng.one_in(60) {
            deviations.push(1);
        }
        let top = if self.rng.one_in(30) { u32::MAX } else { 0xFF_FFFF };
        let fields = Fields::Table {
            frames: self.rng.number() as u16,
            bytes: self.rng.number() as u32 & top,
            millis: self.rng.number() as u32 & top,
            bits_for_bytes: a,
            bits_for_millis: b,
            deviations,
        };
        (self.named("MLL", "MLLT"), fields)
    }

    fn widths(&mut self) -> (u8, u8) {
        let a = self.rng.between(1, 32) as u8;
        if self.rng.one_in(20) {
            return (self.rng.between(0, 40) as u8, self.rng.between(0, 40) as u8);
        }
        let b = self.rng.between(1, 8) as u8 * 4 - a % 4;
        (a, if self.rng.one_in(6) { 4 - a % 4 } else { b })
    }

    // mostly one that fits
    fn deviation(&mut self, width: u8) -> u32 {
        let any = self.rng.number() as u32;
        if self.rng.one_in(60) || width >= 32 {
            any
        } else {
            any & ((1 << width) - 1)
        }
    }

    fn chapter(&mut self, depth: usize) -> (&'static str, Fields) {
        let times = [0; 4].map(|_: u32| self.rng.number() as u32 >> self.rng.below(32));
        let fields = Fields::Chapter { element: self.name(), times, subs: self.subs(depth) };
        ("CHAP", fields)
    }

    fn contents(&mut self, depth: usize) -> (&'static str, Fields) {
        let n = if self.rng.one_in(300) { self.rng.between(254, 257) } else { self.rng.below(5) };
        let most = if n > 5 { 0 } else { 3 };
        let fields = Fields::Contents {
            element: self.name(),
            top_level: self.rng.one_in(2),
            ordered: self.rng.one_in(2),
            children: (0..n).map(|_| self.rng.name(most)).collect(),
            subs: self.subs(depth),
        };
        ("CTOC", fields)
    }

    // records, or a run of any frames, plain popularimeters often among them
    fn subs(&mut self, depth: usize) -> Subs {
        if !self.rng.one_in(4) {
            let counts: &[usize] = if depth < 4 { &[0, 1, 1, 2, 3] } else { &[0] };
            return Subs::Records(self.records(counts, depth + 1));
        }
        let rng = Rng::at(self.rng.number(), 0);
        let mut frames = Frames { rng, edition: self.edition };
        let mut run = Vec::new();
        for _ in 0..self.rng.below(3) {
            if self.rng.one_in(4) {
                run.extend(framed(self.edition, b"POPM", &frames.popularimeter()));
            } else {
                run.extend(frames.frame(depth));
            }
        }
        Subs::Run(run)
    }
}
