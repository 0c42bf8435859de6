//! What is left of a tag after the end of its frames. No counter is read there, but one may stand there.

use streamvault::{Meter, Version, Work};

/// What a popularimeter that is not read may have left after the frames, and its place in the file.
#[derive(Clone, Copy, Debug, PartialEq, Eq)]
pub enum Left {
    /// A frame header that the end of the tag cuts.
    CutHeader(usize),
    /// The id of a popularimeter: the first one.
    Id(&'static str, usize),
}

/// What is found after the frames of a tag, by the meter that went through it.
///
/// Where bytes of the tag are missing a header that is cut is no news: the tag itself is.
pub fn left<W: Work>(tag: &[u8], meter: &Meter<'_, W>) -> impl Iterator<Item = Left> {
    let rest = meter.rest();
    let (header_len, id) = match meter.version() {
        Version::Id3v22 => (6, "POP"),
        Version::Id3v23 | Version::Id3v24 => (10, "POPM"),
    };
    let begun = rest.first().is_some_and(|&byte| byte != 0);
    let cut = begun && rest.len() < header_len && !meter.ending().missing;
    let cut = cut.then(|| Left::CutHeader(place(tag, rest.len())));
    let id = find(rest, id.as_bytes()).map(|at| Left::Id(id, place(tag, rest.len() - at)));
    [cut, id].into_iter().flatten()
}

/// Where some bytes have these in them, if they do.
fn find(bytes: &[u8], wanted: &[u8]) -> Option<usize> {
    // padding has none of the letters, and one is looked for much faster than all
    let may_have = bytes.contains(&wanted[0]);
    may_have.then(|| bytes.windows(wanted.len()).position(|some| some == wanted)).flatten()
}

/// The place in a tag of the byte from which so many lead to the tag's end, once it is resynchronised. That byte is not 0.
fn place(tag: &[u8], back: usize) -> usize {
    let Ok(header) = streamvault::header(tag) else { return 0 };
    let end = tag.len().min(header.tag_len());
    let as_a_whole = header.version != Version::Id3v24 && header.flags & 0x80 != 0;
    let goes = |at: usize| as_a_whole && tag[at - 1..=at] == [0xFF, 0];
    (1..end).rev().filter(|&at| !goes(at)).nth(back - 1).unwrap_or(0)
}

#[cfg(test)]
mod tests {
    use super::*;

    /// A tag of one frame, a title, with these flags, and these bytes after it.
    fn tag(version: u8, flags: u8, rest: &[u8]) -> Vec<u8> {
        let frame = if version == 2 { &b"TT2\0\0\x02\0A"[..] } else { b"TIT2\0\0\0\x02\0\0\0A" };
        let size = frame.len() + rest.len();
        let header = [b'I', b'D', b'3', version, 0, flags, 0, 0, (size >> 7) as u8, size as u8 & 0x7F];
        [&header, frame, rest].concat()
    }

    fn found(tag: &[u8]) -> Vec<Left> {
        let mut meter = Meter::open(tag, Vec::new()).unwrap();
        assert!(meter.next_popularimeter().is_none());
        assert_eq!(meter.ending().frames, 1);
        left(tag, &meter).collect()
    }

    #[test]
    fn padding_is_nothing() {
        for version in [2, 3, 4] {
            for len in [0, 1, 5, 6, 9, 10, 11, 1000] {
                assert_eq!(found(&tag(version, 0, &vec![0; len])), []);
            }
        }
    }

    #[test]
    fn a_header_that_the_end_cuts() {
        for (version, at, most) in [(2, 18, 5), (3, 22, 9), (4, 22, 9)] {
            for len in 1..=most {
                let tag = tag(version, 0, &b"TCOPYRIGHT"[..len]);
                assert_eq!(found(&tag), [Left::CutHeader(at)], "2.{version}, {len} bytes");
                // the same after a zero is padding
                let tag = [&tag[..at], b"\0", &tag[at + 1..]].concat();
                assert_eq!(found(&tag), []);
            }
        }
    }

    #[test]
    fn a_header_that_is_cut_with_the_tag_is_not_told() {
        let tag = tag(4, 0, b"TCOP\0\0\0\x01");
        assert_eq!(found(&tag), [Left::CutHeader(22)]);
        assert_eq!(found(&tag[..tag.len() - 1]), []);
    }

    #[test]
    fn the_id_of_a_popularimeter_at_every_place() {
        for (version, id, at) in [(2, "POP", 18), (3, "POPM", 22), (4, "POPM", 22)] {
            for before in 1..40 {
                for behind in [0, 1, 20] {
                    let rest = [&vec![0; before], id.as_bytes(), &vec![0; behind]].concat();
                    assert_eq!(found(&tag(version, 0, &rest)), [Left::Id(id, at + before)]);
                }
            }
        }
    }

    #[test]
    fn only_the_id_of_the_edition_and_only_the_first() {
        assert_eq!(found(&tag(4, 0, b"\0POP\0POPPOM\0")), []);
        assert_eq!(found(&tag(4, 0, b"\0PPOPOPM\0POPM")), [Left::Id("POPM", 26)]);
        assert_eq!(found(&tag(2, 0, b"\0\0POPM\0POP")), [Left::Id("POP", 20)]);
    }

    #[test]
    fn a_header_that_is_cut_may_be_a_popularimeters() {
        assert_eq!(found(&tag(3, 0, b"POPM\0\0\0")), [Left::CutHeader(22), Left::Id("POPM", 22)]);
        assert_eq!(found(&tag(2, 0, b"POP")), [Left::CutHeader(18), Left::Id("POP", 18)]);
        // of a tag that is cut itself only the id is told
        let tag = tag(3, 0, b"POPM\0\0\0\x09");
        assert_eq!(found(&tag[..26]), [Left::Id("POPM", 22)]);
        assert_eq!(found(&tag[..25]), []);
    }

    #[test]
    fn what_follows_the_tag_is_not_looked_at() {
        for flags in [0, 0x80] {
            let tag = [&tag(3, flags, b"\0\0POPM"), &b"POPM\xFF\0\0POPM"[..]].concat();
            assert_eq!(found(&tag), [Left::Id("POPM", 24)]);
        }
    }

    #[test]
    fn places_are_those_of_the_file_also_where_the_tag_is_resynchronised() {
        for (version, id, at) in [(2, "POP", 18), (3, "POPM", 22)] {
            for behind in [&b""[..], b"\xFF", b"\0\0", b"\xFF\0", b"\xFF\0\0\xFF\0\xE0\xFF\xFF\0\0"] {
                let rest = [b"\0\xFF\0\0\xFF\0", id.as_bytes(), behind].concat();
                assert_eq!(found(&tag(version, 0x80, &rest)), [Left::Id(id, at + 6)], "{behind:02X?}");
            }
            assert_eq!(found(&tag(version, 0x80, b"T\xFF\0\0\xFF")), [Left::CutHeader(at)]);
        }
        // 2.4 tags are not resynchronised as a whole
        assert_eq!(found(&tag(4, 0x80, b"\0\xFF\0POPM\xFF\0")), [Left::Id("POPM", 25)]);
    }

    #[test]
    fn an_extended_header_before_the_frames() {
        let mut extended = tag(3, 0xC0, b"\0POPM");
        extended[9] += 10;
        extended.splice(10..10, *b"\0\0\0\x0A\0\0\0\0\0\xFF");
        assert_eq!(found(&extended), [Left::Id("POPM", 33)]);
    }

    #[test]
    fn nothing_is_found_before_the_end_or_after_a_refusal() {
        let tag = tag(4, 0, b"PRIV\0\0\0\0\0\x04\0POPM");
        let mut meter = Meter::open(&tag, Vec::new()).unwrap();
        assert_eq!(left(&tag, &meter).count(), 0);
        assert!(meter.next_popularimeter().unwrap().is_err());
        assert_eq!(left(&tag, &meter).count(), 0);
    }
}
