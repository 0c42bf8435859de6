//! Editions, modes, kinds of frames and encodings, with the numbers that the C interface has for them.

use crate::sys;
use std::fmt;

/// The editions of ID3v2.
#[derive(Clone, Copy, Debug, PartialEq, Eq, PartialOrd, Ord, Hash)]
pub enum Version {
    /// ID3v2.2, with ids of three characters.
    Id3v22,
    /// ID3v2.3.
    Id3v23,
    /// ID3v2.4.
    Id3v24,
}

impl Version {
    /// The edition's number: 2, 3 or 4.
    pub fn edition(self) -> u8 {
        match self {
            Version::Id3v22 => 2,
            Version::Id3v23 => 3,
            Version::Id3v24 => 4,
        }
    }

    /// The edition that a word of the C interface says.
    pub(crate) fn of(word: u64) -> Version {
        match word {
            2 => Version::Id3v22,
            3 => Version::Id3v23,
            4 => Version::Id3v24,
            other => unreachable!("an accepted call left the version {other}"),
        }
    }
}

impl fmt::Display for Version {
    fn fmt(&self, f: &mut fmt::Formatter<'_>) -> fmt::Result {
        write!(f, "2.{}", self.edition())
    }
}

/// What a writer does against false synchronisation.
#[derive(Clone, Copy, Debug, Default, PartialEq, Eq, Hash)]
pub enum Mode {
    /// Nothing.
    #[default]
    Off,
    /// A zero goes in after each FF before 00, as the crate id3 does.
    Crate,
    /// A zero goes in after each FF before 00 and before E0 to FF, as the 2.4.0 text says. Finish with at least one byte
    /// of padding where sound follows directly.
    Standard,
}

impl Mode {
    /// The word of the C interface.
    pub(crate) fn word(self) -> u64 {
        match self {
            Mode::Off => sys::SV_MODE_OFF,
            Mode::Crate => sys::SV_MODE_CRATE,
            Mode::Standard => sys::SV_MODE_STANDARD,
        }
    }
}

/// The kinds of frames. More may come, so that a `match` outside this crate needs an arm for others.
#[derive(Clone, Copy, Debug, PartialEq, Eq, PartialOrd, Ord, Hash)]
#[non_exhaustive]
pub enum Kind {
    /// A text: ids that begin with T, except TXX and TXXX.
    Text,
    /// A popularimeter: POP, POPM.
    Popularimeter,
    /// A lookup table: MLL, MLLT.
    Table,
    /// A chapter: CHAP.
    Chapter,
    /// A table of contents: CTOC.
    Contents,
    /// Any other frame, and a compressed one.
    Raw,
}

impl Kind {
    /// The word that the listing has for it.
    pub fn name(self) -> &'static str {
        match self {
            Kind::Text => "text",
            Kind::Popularimeter => "popularimeter",
            Kind::Table => "table",
            Kind::Chapter => "chapter",
            Kind::Contents => "contents",
            Kind::Raw => "raw",
        }
    }

    /// The word of the C interface.
    pub(crate) fn word(self) -> u64 {
        match self {
            Kind::Text => sys::SV_KIND_TEXT,
            Kind::Popularimeter => sys::SV_KIND_POPULARIMETER,
            Kind::Table => sys::SV_KIND_TABLE,
            Kind::Chapter => sys::SV_KIND_CHAPTER,
            Kind::Contents => sys::SV_KIND_CONTENTS,
            Kind::Raw => sys::SV_KIND_RAW,
        }
    }

    /// The kind that a word of the C interface says.
    pub(crate) fn of(word: u64) -> Kind {
        match word {
            sys::SV_KIND_TEXT => Kind::Text,
            sys::SV_KIND_POPULARIMETER => Kind::Popularimeter,
            sys::SV_KIND_TABLE => Kind::Table,
            sys::SV_KIND_CHAPTER => Kind::Chapter,
            sys::SV_KIND_CONTENTS => Kind::Contents,
            sys::SV_KIND_RAW => Kind::Raw,
            other => unreachable!("an accepted step left the kind {other}"),
        }
    }
}

impl fmt::Display for Kind {
    fn fmt(&self, f: &mut fmt::Formatter<'_>) -> fmt::Result {
        f.write_str(self.name())
    }
}

/// The encodings of a text. The text itself is handed on as bytes, undecoded.
#[derive(Clone, Copy, Debug, PartialEq, Eq, Hash)]
pub enum Encoding {
    /// Latin-1, number 0.
    Latin1,
    /// UTF-16 with a mark of its byte order, number 1.
    Utf16,
    /// UTF-16, big-endian without a mark, number 2.
    Utf16Be,
    /// UTF-8, number 3.
    Utf8,
}

impl Encoding {
    /// The encoding's number: 0 to 3.
    pub fn number(self) -> u8 {
        match self {
            Encoding::Latin1 => 0,
            Encoding::Utf16 => 1,
            Encoding::Utf16Be => 2,
            Encoding::Utf8 => 3,
        }
    }

    /// The encoding that a word of the C interface says.
    pub(crate) fn of(word: u64) -> Encoding {
        match word {
            0 => Encoding::Latin1,
            1 => Encoding::Utf16,
            2 => Encoding::Utf16Be,
            3 => Encoding::Utf8,
            other => unreachable!("an accepted step left the encoding {other}"),
        }
    }
}

#[cfg(test)]
mod tests {
    use super::*;

    #[test]
    fn words_go_there_and_back() {
        for word in 2..=4 {
            assert_eq!(u64::from(Version::of(word).edition()), word);
        }
        for word in 0..=5 {
            assert_eq!(Kind::of(word).word(), word);
        }
        for word in 0..=3 {
            assert_eq!(u64::from(Encoding::of(word).number()), word);
        }
    }

    #[test]
    fn editions_print_as_the_listing_has_them() {
        assert_eq!(Version::Id3v22.to_string(), "2.2");
        assert_eq!(Version::Id3v24.to_string(), "2.4");
    }
}
