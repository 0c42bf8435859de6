//! Where the tags of a run come from: generated ones, every short input after a header, every cut of good tags.
use crate::tags;

/// A numbered stock of tags.
pub enum Source {
    /// So many generated tags from a seed.
    Generated { seed: u64, count: u64 },
    /// So many generated tags with a long body.
    Large { seed: u64, count: u64 },
    /// Every input of at most so many bytes after each of some headers.
    Short(Vec<Short>),
    /// Every cut of good tags: the tags, and how many cuts come before each.
    Cuts { tags: Vec<Vec<u8>>, before: Vec<u64> },
}

/// A header, which every input is put after, and what follows the input.
#[derive(Clone)]
pub struct Short {
    /// What it is, for the report.
    pub name: String,
    head: Vec<u8>,
    tail: Vec<u8>,
    most: u32,
}

impl Source {
    /// Every cut of the first so many good tags of a seed.
    pub fn cuts(seed: u64, count: u64) -> Source {
        let tags: Vec<Vec<u8>> = (0..count).map(|i| tags::sound(seed, i)).collect();
        let mut total = 0;
        let mut before = Vec::new();
        for tag in &tags {
            before.push(total);
            total += tag.len() as u64;
        }
        before.push(total);
        Source::Cuts { tags, before }
    }

    /// What it is.
    pub fn name(&self) -> String {
        match self {
            Source::Generated { seed, .. } => format!("generated tags, seed {seed}"),
            Source::Large { seed, .. } => format!("generated tags with bodies of some 64 to 65,560 bytes, seed {seed}"),
            Source::Short(shorts) => {
                let most = shorts.first().map_or(0, |short| short.most);
                match &shorts[..] {
                    [short] => format!("every input of up to {most} bytes behind {}", short.name),
                    _ => format!("every input of up to {most} bytes behind {} other headers", shorts.len()),
                }
            }
            Source::Cuts { tags, .. } => format!("every cut of {} tags", tags.len()),
        }
    }

    /// How many tags it has.
    pub fn count(&self) -> u64 {
        match self {
            Source::Generated { count, .. } | Source::Large { count, .. } => *count,
            Source::Short(shorts) => shorts.iter().map(Short::count).sum(),
            Source::Cuts { before, .. } => before.last().copied().unwrap_or(0),
        }
    }

    /// The tag of a number, put into a buffer.
    pub fn tag(&self, index: u64, out: &mut Vec<u8>) {
        out.clear();
        match self {
            Source::Generated { seed, .. } => out.extend(tags::tag(*seed, index)),
            Source::Large { seed, .. } => out.extend(tags::large(*seed, index)),
            Source::Short(shorts) => {
                // all of one source have the same count
                let each = shorts[0].count();
                shorts[(index / each) as usize].tag(index % each, out);
            }
            Source::Cuts { tags, before } => {
                let i = before.partition_point(|n| *n <= index) - 1;
                out.extend(&tags[i][..(index - before[i]) as usize]);
            }
        }
    }
}

impl Short {
    fn count(&self) -> u64 {
        (0..=self.most).map(|n| 1 << (8 * n)).sum()
    }

    fn tag(&self, index: u64, out: &mut Vec<u8>) {
        let mut rest = index;
        let mut len = 0;
        while rest >= 1 << (8 * len) {
            rest -= 1 << (8 * len);
            len += 1;
        }
        out.extend(&self.head);
        out.extend(&rest.to_be_bytes()[8 - len as usize..]);
        out.extend(&self.tail);
    }
}

fn tag_header(edition: u8, flags: u8, size: u8) -> Vec<u8> {
    vec![b'I', b'D', b'3', edition, 0, flags, 0, 0, 0, size]
}

fn frame_header(edition: u8, id: &[u8], size: u8, flags: u8) -> Vec<u8> {
    let mut out = id.to_vec();
    out.extend(&[0, 0, 0, size][if edition == 2 { 1 } else { 0 }..]);
    if edition > 2 {
        out.extend([0, flags]);
    }
    out
}

fn behind(name: &str, head: &[&[u8]], tail: &[u8], most: u32) -> Short {
    Short { name: name.to_string(), head: head.concat(), tail: tail.to_vec(), most }
}

/// The headers. Inputs after the first ones have up to `most` bytes, after the others up to two.
pub fn shorts(most: u32) -> Vec<Source> {
    let first = [
        behind(
            "a 2.2 tag header, being the frame's id, with 00 00 02 00 41 after it",
            &[&tag_header(2, 0, 8)],
            &[0, 0, 2, 0, 0x41],
            most,
        ),
        behind("POP in 2.2, size 3", &[&tag_header(2, 0, 9), &frame_header(2, b"POP", 3, 0)], &[], most),
        behind(
            "POPM in 2.4 flagged 0002, size 3",
            &[&tag_header(4, 0, 13), &frame_header(4, b"POPM", 3, 2)],
            &[],
            most,
        ),
        behind(
            "ABCD in unsynchronised 2.3, size 2",
            &[&tag_header(3, 0x80, 13), &frame_header(3, b"ABCD", 2, 0)],
            &[],
            most,
        ),
        behind(
            "TIT2 in 2.3, size 4, encoding 1",
            &[&tag_header(3, 0, 14), &frame_header(3, b"TIT2", 4, 0), &[1]],
            &[],
            most,
        ),
        behind(
            "TIT2 in 2.4, size 4, encoding 0",
            &[&tag_header(4, 0, 14), &frame_header(4, b"TIT2", 4, 0), &[0]],
            &[],
            most,
        ),
        behind(
            "TIT2 in 2.4, size 4, encoding 1",
            &[&tag_header(4, 0, 14), &frame_header(4, b"TIT2", 4, 0), &[1]],
            &[],
            most,
        ),
        behind(
            "MLLT in 2.4, size 11, its first eight bytes",
            &[&tag_header(4, 0, 21), &frame_header(4, b"MLLT", 11, 0), &[0; 8]],
            &[],
            most,
        ),
    ];
    let mut out: Vec<Source> = first.into_iter().map(|short| Source::Short(vec![short])).collect();
    out.push(Source::Short(others(most.min(2))));
    out
}

fn others(most: u32) -> Vec<Short> {
    let mut out = vec![behind("eight bytes of a 2.4 tag header", &[b"ID3\x04\0\0\0\0"], &[], most)];
    for edition in 2..=4 {
        for flags in [0, 0x80, 0x40, 0x20, 0x01] {
            let name = format!("a 2.{edition} tag header with flags {flags:02X}");
            out.push(behind(&name, &[&tag_header(edition, flags, 40)], &[0; 30], most));
        }
    }
    out.extend(flags(most));
    out.extend([3, 4].map(|edition| extended(edition, most)));
    out.extend(parts(most));
    out.extend(counters(most));
    out
}

// all flags of a frame, with each small size
fn flags(most: u32) -> Vec<Short> {
    let mut out = Vec::new();
    for edition in [3u8, 4] {
        for id in [&b"POPM"[..], b"TIT2", b"ABCD"] {
            for size in 0..7 {
                let name = format!("{} in 2.{edition} with size {size}, being its flags", String::from_utf8_lossy(id));
                let head = [tag_header(edition, 0, 40), id.to_vec(), vec![0, 0, 0, size]].concat();
                out.push(behind(&name, &[&head], &[0, 0, 0xFF, 0, 3, 0x41, 0, 0, 0], most));
            }
        }
    }
    out
}

fn extended(edition: u8, most: u32) -> Short {
    let name = format!("a 2.{edition} tag header with flag 40 and 00 00, being the rest of the extended size");
    let frame = frame_header(edition, b"POPM", 3, 0);
    behind(&name, &[&tag_header(edition, 0x40, 30), &[0, 0]], &[&[0, 0], &frame[..], &[0, 5, 7]].concat(), most)
}

// sizes, texts and chapters
fn parts(most: u32) -> Vec<Short> {
    let tail = [0, 0, 0x61, 0, 5, 1, 0, 0, 0];
    let mut out = vec![
        behind("a 2.2 frame ABC, being the end of its size", &[&tag_header(2, 0, 20), b"ABC\0"], &tail, most),
        behind("a 2.3 frame ABCD, being the end of its size", &[&tag_header(3, 0, 20), b"ABCD\0\0"], &tail, most),
        behind("a 2.4 frame ABCD, being the end of its size", &[&tag_header(4, 0, 20), b"ABCD\0\0"], &tail, most),
        behind(
            "CTOC in 2.4, size 12, with 61 00, being flags and count",
            &[&tag_header(4, 0, 22), &frame_header(4, b"CTOC", 12, 0), b"a\0"],
            b"b\0c\0d\0e\0",
            most,
        ),
    ];
    for edition in 2..=4u8 {
        let id: &[u8] = if edition == 2 { b"TT2" } else { b"TIT2" };
        for encoding in 0..5u8 {
            let name = format!(
                "{} in 2.{edition}, size 6, encoding {encoding}, with 41 00 after it",
                String::from_utf8_lossy(id)
            );
            out.push(behind(
                &name,
                &[&tag_header(edition, 0, 16), &frame_header(edition, id, 6, 0), &[encoding]],
                &[0x41, 0],
                most,
            ));
        }
    }
    out
}

// long counters, of which the input is a part
fn counters(most: u32) -> Vec<Short> {
    let front = [0, 5, 0];
    let subframe = frame_header(3, b"POPM", 12, 0);
    vec![
        behind(
            "POP in 2.2, size 12, with 00 05 00, being a part of its counter of ten bytes",
            &[&tag_header(2, 0, 18), &frame_header(2, b"POP", 12, 0), &front],
            &[0; 7],
            most,
        ),
        behind(
            "POPM in 2.4 flagged 0002, size 14, with 00 05 00, being a part of its counter",
            &[&tag_header(4, 0, 24), &frame_header(4, b"POPM", 14, 2), &front],
            &[0, 0xFF, 0, 0, 0xFF, 0, 0xE0, 0, 0],
            most,
        ),
        behind(
            "CHAP in 2.3 with POPM, size 12, with 00 05 00, being a part of its counter of ten bytes",
            &[&tag_header(3, 0, 49), &frame_header(3, b"CHAP", 39, 0), &[0; 17], &subframe, &front],
            &[0; 7],
            most,
        ),
    ]
}
