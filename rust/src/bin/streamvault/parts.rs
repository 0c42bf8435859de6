//! The parts of a file that are read: the tag at its front, the bytes after that, and the file's last bytes.

use std::io::{self, Read, Seek, SeekFrom};
use streamvault::{Header, Version};

/// The first letters of a tag.
const TAG: &[u8] = b"ID3";

/// The first letters of a footer, which a 2.4 tag has where this flag of its header is set, and always at a file's end.
const FOOTER: &[u8] = b"3DI";
const FOOTER_LEN: usize = 10;
const HAS_FOOTER: u8 = 0x10;

/// The first letters of an ID3v1 tag, which lies at a file's end.
const OLD_TAG: &[u8] = b"TAG";
const OLD_TAG_LEN: usize = 128;

/// Bytes after a tag that are read: its footer, and the first letters of another tag.
const BEHIND: usize = FOOTER_LEN + TAG.len();

/// Bytes of a file's end that are read: a footer, and an ID3v1 tag.
const END: usize = FOOTER_LEN + OLD_TAG_LEN;

/// Bytes of a buffer that stay reserved from file to file.
pub const KEPT: usize = 1 << 20;

/// Reads the tag at the front of a file, with so many bytes after it, and not the sound. Gives its header. Where that is
/// refused up to [`Header::PEEK`] bytes are read, which are refused in the same way.
pub fn read_front(mut input: impl Read, behind: usize, front: &mut Vec<u8>) -> io::Result<Option<Header>> {
    front.clear();
    input.by_ref().take(Header::PEEK as u64).read_to_end(front)?;
    let header = streamvault::header(front).ok();
    if let Some(header) = header {
        let wanted = header.tag_len() + behind;
        front.truncate(wanted);
        input.take((wanted - front.len()) as u64).read_to_end(front)?;
    }
    Ok(header)
}

/// A tag that was found and is not read, and its place in the file.
#[derive(Clone, Copy, Debug, PartialEq, Eq)]
pub enum Further {
    /// Directly after the tag at the front.
    Second(u64),
    /// At the file's end: the place is that of its footer.
    AtEnd(u64),
}

/// What is read of a file.
#[derive(Debug, Default)]
pub struct Parts {
    /// The tag and some bytes after it; of a file without one its first bytes.
    front: Vec<u8>,
    /// The header of the tag, if it is accepted.
    header: Option<Header>,
    /// The last bytes.
    end: Vec<u8>,
    /// Bytes of the file.
    len: u64,
}

impl Parts {
    /// Reads the parts of a file of this length. It is an error where there are fewer bytes.
    pub fn read(&mut self, mut file: impl Read + Seek, len: u64) -> io::Result<()> {
        self.len = len;
        self.front.clear();
        self.front.shrink_to(KEPT);
        self.header = read_front(&mut file, BEHIND, &mut self.front)?;
        let wanted = self.header.map_or(Header::PEEK, |header| header.tag_len() + BEHIND);
        there(&self.front, len.min(wanted as u64))?;
        let from = len.saturating_sub(END as u64);
        self.end.clear();
        file.seek(SeekFrom::Start(from))?;
        file.take(len - from).read_to_end(&mut self.end)?;
        there(&self.end, len - from)
    }

    /// The tag at the front, as far as it is there; of a file without one its first bytes.
    pub fn tag(&self) -> &[u8] {
        let len = self.header.map_or(self.front.len(), |header| header.tag_len());
        &self.front[..len.min(self.front.len())]
    }

    /// Whether the file begins as a tag does.
    pub fn has_tag(&self) -> bool {
        begins(&self.front)
    }

    /// Tags that are not read.
    pub fn further(&self) -> impl Iterator<Item = Further> {
        [self.second(), self.at_end()].into_iter().flatten()
    }

    /// A tag directly after the one at the front.
    fn second(&self) -> Option<Further> {
        let behind = self.behind();
        let found = self.front.get(behind..).is_some_and(|rest| !rest.is_empty() && begins(rest));
        (self.header.is_some() && found).then_some(Further::Second(behind as u64))
    }

    /// A footer in the last ten bytes, or in the ten before an ID3v1 tag.
    fn at_end(&self) -> Option<Further> {
        let old = self.last(OLD_TAG_LEN).starts_with(OLD_TAG);
        self.footer(FOOTER_LEN).or(if old { self.footer(END) } else { None })
    }

    /// A footer so many bytes before the file's end, which belongs to no tag at the front.
    fn footer(&self, back: usize) -> Option<Further> {
        let place = self.len.checked_sub(back as u64)?;
        let found = self.last(back).starts_with(FOOTER) && place >= self.behind() as u64;
        found.then_some(Further::AtEnd(place))
    }

    /// The place after the tag at the front and its footer, if it has one; 0 where there is none.
    fn behind(&self) -> usize {
        let Some(header) = self.header else { return 0 };
        let end = header.tag_len();
        let says_so = header.version == Version::Id3v24 && header.flags & HAS_FOOTER != 0;
        let has_footer = says_so && self.front.get(end..).is_some_and(|rest| rest.starts_with(FOOTER));
        end + if has_footer { FOOTER_LEN } else { 0 }
    }

    /// So many bytes at the file's end; none where it has fewer.
    fn last(&self, count: usize) -> &[u8] {
        let from = self.end.len().checked_sub(count);
        from.map_or(&[], |from| &self.end[from..])
    }
}

/// Whether bytes begin as a tag does. Those that end within its first letters may be a tag that was cut.
fn begins(bytes: &[u8]) -> bool {
    bytes.starts_with(TAG) || TAG.starts_with(bytes)
}

/// That at least so many bytes were read.
fn there(bytes: &[u8], wanted: u64) -> io::Result<()> {
    if (bytes.len() as u64) < wanted {
        return Err(io::Error::other("the file became shorter while it was read"));
    }
    Ok(())
}

#[cfg(test)]
mod tests {
    use super::*;
    use std::io::Cursor;

    fn front_of(file: &[u8]) -> (bool, Vec<u8>) {
        let mut front = b"left over".to_vec();
        let header = read_front(file, 0, &mut front).unwrap();
        (header.is_some(), front)
    }

    #[test]
    fn only_the_tag_is_read() {
        let mut file = b"ID3\x04\0\0\0\0\0\x0C".to_vec();
        file.extend([0; 12]);
        let len = file.len();
        file.extend([0xFF; 1000]);
        assert_eq!(front_of(&file), (true, file[..len].to_vec()));
    }

    #[test]
    fn a_tag_shorter_than_what_is_looked_at() {
        assert_eq!(front_of(b"ID3\x04\0\0\0\0\0\x02\0\0sound"), (true, b"ID3\x04\0\0\0\0\0\x02\0\0".to_vec()));
    }

    #[test]
    fn a_file_that_ends_early_is_taken_as_far_as_it_goes() {
        let file = b"ID3\x03\0\0\0\0\x7F\x7Fsome frames and no more";
        assert_eq!(front_of(file), (true, file.to_vec()));
        assert_eq!(front_of(b"ID3\x03"), (false, b"ID3\x03".to_vec()));
    }

    #[test]
    fn the_extended_header_is_looked_at() {
        let mut file = b"ID3\x03\0\x40\0\0\0\x20\0\0\0\x06\0\0".to_vec();
        file.extend([0; 100]);
        assert_eq!(front_of(&file).1.len(), 10 + 0x20);
    }

    #[test]
    fn a_refused_header_needs_no_more_bytes() {
        let (accepted, tag) = front_of(b"ID3\x09\0\0\0\0\0\x7F and so on, for a long time");
        assert!(!accepted);
        assert_eq!(streamvault::header(&tag).unwrap_err().number(), 2);
    }

    // ---- further tags

    /// A 2.4 tag of two bytes with these header flags.
    fn tag(flags: u8) -> Vec<u8> {
        [b"ID3\x04\0", &[flags][..], b"\0\0\0\x02\0\0"].concat()
    }

    const FOOT: &[u8] = b"3DI\x04\0\x10\0\0\0\x02";
    const SOUND: &[u8] = &[0xFF; 200];

    /// An ID3v1 tag.
    fn old_tag() -> Vec<u8> {
        [OLD_TAG, &[b' '; OLD_TAG_LEN - 3]].concat()
    }

    fn parts_of(file: &[u8]) -> Parts {
        let mut parts = Parts::default();
        parts.read(Cursor::new(file), file.len() as u64).unwrap();
        parts
    }

    fn further(file: &[&[u8]]) -> Vec<Further> {
        parts_of(&file.concat()).further().collect()
    }

    #[test]
    fn one_tag_has_no_further_ones() {
        for file in [&[&tag(0)[..]][..], &[&tag(0), SOUND], &[&tag(0), SOUND, &old_tag()], &[SOUND], &[&old_tag()]] {
            assert_eq!(further(file), []);
        }
    }

    #[test]
    fn a_footer_of_its_own_is_no_further_tag() {
        for file in [&[&tag(0x10)[..], FOOT][..], &[&tag(0x10), FOOT, SOUND], &[&tag(0x10), FOOT, &old_tag()]] {
            assert_eq!(further(file), []);
        }
        // a footer that is cut, and one that the header does not speak of
        assert_eq!(further(&[&tag(0x10), &FOOT[..5]]), []);
        assert_eq!(further(&[&tag(0), FOOT]), [Further::AtEnd(12)]);
    }

    #[test]
    fn a_second_tag_directly_after_the_first() {
        assert_eq!(further(&[&tag(0), &tag(0), SOUND]), [Further::Second(12)]);
        assert_eq!(further(&[&tag(0x10), FOOT, &tag(0), SOUND]), [Further::Second(22)]);
        assert_eq!(further(&[&tag(0x10), &tag(0), SOUND]), [Further::Second(12)]);
        assert_eq!(further(&[&tag(0), SOUND, &tag(0)]), []);
    }

    #[test]
    fn a_second_tag_that_is_cut_to_its_first_letters() {
        for len in 1..=3 {
            assert_eq!(further(&[&tag(0), &b"ID3"[..len]]), [Further::Second(12)]);
        }
        assert_eq!(further(&[&tag(0), b"D3"]), []);
    }

    #[test]
    fn a_tag_at_the_end_by_its_footer() {
        assert_eq!(further(&[&tag(0), SOUND, &tag(0x10), FOOT]), [Further::AtEnd(224)]);
        assert_eq!(further(&[&tag(0), SOUND, &tag(0x10), FOOT, &old_tag()]), [Further::AtEnd(224)]);
        assert_eq!(further(&[SOUND, &tag(0x10), FOOT]), [Further::AtEnd(212)]);
        assert_eq!(further(&[FOOT]), [Further::AtEnd(0)]);
        assert_eq!(further(&[&tag(0x10), FOOT, &tag(0x10), FOOT]), [Further::Second(22), Further::AtEnd(34)]);
    }

    #[test]
    fn what_lies_inside_the_tag_is_no_further_tag() {
        let inside = [b"ID3\x04\0\x10\0\0\0\x0A", FOOT].concat();
        assert_eq!(further(&[&inside]), []);
        // also where the tag is cut
        assert_eq!(further(&[b"ID3\x04\0\x10\0\0\0\x7F", FOOT]), []);
    }

    // ---- what is there

    #[test]
    fn a_file_that_ends_within_the_first_letters_begins_as_a_tag() {
        for file in [&b""[..], b"I", b"ID", b"ID3", b"ID3\x04\0"] {
            assert!(parts_of(file).has_tag());
            assert_eq!(parts_of(file).tag(), file);
        }
        for file in [&b"D3"[..], b"TAG", b"RIFF and so on and so on"] {
            assert!(!parts_of(file).has_tag());
        }
    }

    #[test]
    fn the_tag_ends_where_its_header_says() {
        let file = [&tag(0), SOUND].concat();
        assert_eq!(parts_of(&file).tag(), tag(0));
        assert_eq!(parts_of(&tag(0)[..11]).tag(), &tag(0)[..11]);
    }

    #[test]
    fn a_file_that_became_shorter_is_an_error() {
        let file = [&tag(0), SOUND].concat();
        for len in [0, 5, 15, 20, 100, file.len() - 1] {
            let mut parts = Parts::default();
            assert!(parts.read(Cursor::new(&file[..len]), file.len() as u64).is_err(), "{len} bytes");
        }
    }

    #[test]
    fn a_file_that_became_longer_is_read_as_it_was() {
        let file = [&tag(0), FOOT].concat();
        let mut parts = Parts::default();
        parts.read(Cursor::new(&file), 12).unwrap();
        assert_eq!((parts.tag(), parts.further().count()), (&file[..12], 0));
    }
}
