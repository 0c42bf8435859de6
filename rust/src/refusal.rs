//! Refusals: a number, its name and what it means.

use crate::sys::MEANINGS;
use std::error::Error;
use std::fmt;

/// Why a call was refused: a number of `docs/SCOPE.md`, the same in the C interface and in the library.
///
/// ```
/// use streamvault::Refusal;
///
/// let refusal = streamvault::header(b"no tag").unwrap_err();
/// assert_eq!(refusal, Refusal::NO_TAG);
/// assert_eq!(refusal.number(), 1);
/// assert_eq!(
///     refusal.to_string(),
///     "refused 1: fewer than ten bytes, or they do not begin with \"ID3\""
/// );
///
/// // the constants are patterns as well
/// let advice = match refusal {
///     Refusal::NO_TAG => "look for another file",
///     Refusal::ENCRYPTED | Refusal::GROUPED => "ask who wrote it",
///     _ => "see what it means",
/// };
/// assert_eq!(advice, "look for another file");
/// ```
#[derive(Clone, Copy, Debug, PartialEq, Eq, Hash)]
pub struct Refusal(u32);

impl Refusal {
    /// The refusal that a call answered; nothing for 0.
    pub(crate) fn of(answer: u32) -> Result<(), Refusal> {
        match answer {
            0 => Ok(()),
            number => Err(Refusal(number)),
        }
    }

    /// The refusal of this number.
    pub(crate) const fn new(number: u32) -> Refusal {
        Refusal(number)
    }

    /// The refusal that an answer of [`calls`](crate::calls) says; none for 0, for [`SV_END`](crate::sys::SV_END) and for
    /// numbers that no call answers.
    ///
    /// ```
    /// use streamvault::{calls, Refusal};
    ///
    /// let answer = calls::header(b"no tag", &mut [0; 4]);
    /// assert_eq!(Refusal::from_number(answer), Some(Refusal::NO_TAG));
    /// assert_eq!(Refusal::from_number(0), None);
    /// ```
    pub fn from_number(number: u32) -> Option<Refusal> {
        Refusal::ALL.iter().copied().find(|refusal| refusal.0 == number)
    }

    /// The number, one of the constants in [`sys`](crate::sys).
    pub const fn number(self) -> u32 {
        self.0
    }

    /// What the number means, in one line.
    pub fn meaning(self) -> &'static str {
        let found = MEANINGS.iter().find(|(number, _)| *number == self.0);
        found.map_or("a number that is none", |(_, meaning)| meaning.trim())
    }
}

impl fmt::Display for Refusal {
    fn fmt(&self, f: &mut fmt::Formatter<'_>) -> fmt::Result {
        write!(f, "refused {}: {}", self.0, self.meaning())
    }
}

impl Error for Refusal {}

/// Makes the constants, each with its number and its meaning, and the list of all.
macro_rules! names {
    ($(#[doc = $meaning:literal] $name:ident = $number:literal;)*) => {
        /// The refusals by their names, which the C interface has with `SV_` before them.
        impl Refusal {
            $(
                #[doc = concat!("Refused ", $number, ":", $meaning, ".")]
                pub const $name: Refusal = Refusal($number);
            )*

            /// Every refusal, in the order of the numbers.
            pub const ALL: &'static [Refusal] = &[$(Refusal::$name),*];
        }
    };
}

names! {
    /// fewer than ten bytes, or they do not begin with "ID3"
    NO_TAG = 1;
    /// the edition is not 2.2, 2.3 or 2.4; or a version, mode, mark or state that is none
    UNKNOWN_VERSION = 2;
    /// one of the low four flag bits of the tag header is set
    UNKNOWN_FLAGS = 3;
    /// a 2.2 tag that is compressed as a whole
    COMPRESSED_TAG = 4;
    /// bytes are missing: of the extended header, of a data length, or of a 2.3 body
    MISSING_BYTES = 5;
    /// the extended header's size is below 6
    SMALL_EXTENDED_HEADER = 6;
    /// a frame's id is not UTF-8
    ID_NOT_UTF8 = 7;
    /// a frame is encrypted
    ENCRYPTED = 8;
    /// a frame belongs to a group
    GROUPED = 9;
    /// a 2.3 frame with a data length has a size below 4
    SMALL_FRAME = 10;
    /// a field of a frame's body is missing
    MISSING_FIELD = 11;
    /// a text's encoding is over 3
    UNKNOWN_ENCODING = 12;
    /// frames lie inside one another at depth 9
    TOO_DEEP = 13;
    /// the work buffer does not hold what is to be resynchronised
    WORK_TOO_SMALL = 14;
    /// the result is longer than the room lent, or a buffer is shorter than what it has to hold
    NO_ROOM = 20;
    /// the id is not 3 (2.2) or 4 characters of A-Z and 0-9, or not of the record's kind; or no record
    WRONG_ID = 21;
    /// a 2.2 body is empty
    EMPTY_BODY = 22;
    /// a 2.2 body is over 16,777,215 bytes
    LONG_BODY = 23;
    /// a stored body, or the frames with the padding, have 2^28 bytes or more
    TOO_LONG = 24;
    /// a raw record under an id of a kind, or a record marked short or compressed
    NOT_WRITABLE = 25;
    /// a reader would end the text early
    TEXT_ENDS_EARLY = 26;
    /// the user or the element id holds a zero
    ZERO_IN_NAME = 27;
    /// over 255 children, or some are given and do not end in a zero
    WRONG_CHILDREN = 28;
    /// the run of subframes is refused, short, padded, not used up, too deep or unsynchronised
    WRONG_RUN = 29;
    /// a width of a lookup table is not 1 to 32
    WRONG_WIDTH = 30;
    /// the widths' sum is no multiple of 4
    WIDTHS_NOT_IN_FOURS = 31;
    /// the widths' sum is over 64
    WIDTHS_OVER_64 = 32;
    /// a deviation lacks its pair or does not fit its width, or a step is 2^24 or more
    WRONG_DEVIATION = 33;
    /// the widths sum to 4 and the references are odd in number
    ODD_REFERENCES = 34;
    /// a popularimeter's counter does not fit 64 bits
    COUNTER_TOO_LARGE = 35;
    /// the tag is not plain: cut, extended, unsynchronised, a frame compressed or short, or padding not zero
    NOT_PLAIN = 40;
    /// no popularimeter of the top level has this user
    USER_ABSENT = 41;
    /// two or more popularimeters of the top level have this user
    USER_TWICE = 42;
    /// the counter and the amount sum to more than 64 bits hold
    SUM_TOO_LARGE = 43;
    /// the counter has too few bytes for the sum
    COUNTER_TOO_SHORT = 44;
    /// the tag has no frame of this number
    NO_SUCH_FRAME = 46;
}

#[cfg(test)]
mod tests {
    use super::*;

    #[test]
    fn every_number_has_a_meaning_of_its_own() {
        for (i, (number, meaning)) in MEANINGS.iter().enumerate() {
            assert_eq!(Refusal::new(*number).meaning(), meaning.trim());
            assert!(!meaning.trim().is_empty());
            for (other, text) in &MEANINGS[..i] {
                assert_ne!(number, other);
                assert_ne!(meaning, text);
            }
        }
    }

    #[test]
    fn every_number_has_a_name() {
        let named: Vec<_> = Refusal::ALL.iter().map(|refusal| refusal.number()).collect();
        let meant: Vec<_> = MEANINGS.iter().map(|(number, _)| *number).collect();
        assert_eq!(named, meant);
        for refusal in Refusal::ALL {
            assert_eq!(Refusal::from_number(refusal.number()), Some(*refusal));
        }
    }

    #[test]
    fn other_numbers_say_that_they_are_none() {
        assert_eq!(Refusal::new(99).to_string(), "refused 99: a number that is none");
        for number in [0, 15, 19, 36, 39, 45, 47, 99, crate::sys::SV_END] {
            assert_eq!(Refusal::from_number(number), None);
        }
    }
}
