//! Frame ids.

use std::fmt;

/// A frame's id: three bytes in 2.2, four in 2.3 and 2.4. The first is never 0.
///
/// ```
/// use streamvault::Id;
///
/// let id = Id::from(b"POPM");
/// assert_eq!(id.as_bytes(), b"POPM");
/// assert_eq!(id.number(), 0x504F_504D);
/// assert_eq!(Id::from(b"POP").number(), 0x0050_4F50);
/// assert_eq!(id.to_string(), "POPM");
/// ```
#[derive(Clone, Copy, PartialEq, Eq, PartialOrd, Ord, Hash)]
pub struct Id([u8; 4]);

impl Id {
    /// The id whose bytes are this number, highest first.
    pub const fn from_number(number: u32) -> Id {
        Id(number.to_be_bytes())
    }

    /// The bytes as one number, highest first.
    pub const fn number(self) -> u32 {
        u32::from_be_bytes(self.0)
    }

    /// The three or four bytes.
    pub fn as_bytes(&self) -> &[u8] {
        match self.0 {
            [0, ..] => &self.0[1..],
            _ => &self.0,
        }
    }

    /// The id that a word of the C interface says.
    pub(crate) fn of(word: u64) -> Id {
        let number = u32::try_from(word).expect("an accepted step leaves an id of 32 bits");
        Id::from_number(number)
    }
}

impl From<&[u8; 3]> for Id {
    fn from(bytes: &[u8; 3]) -> Id {
        Id([0, bytes[0], bytes[1], bytes[2]])
    }
}

impl From<&[u8; 4]> for Id {
    fn from(bytes: &[u8; 4]) -> Id {
        Id(*bytes)
    }
}

/// Bytes that are not printable ASCII are escaped.
impl fmt::Display for Id {
    fn fmt(&self, f: &mut fmt::Formatter<'_>) -> fmt::Result {
        write!(f, "{}", self.as_bytes().escape_ascii())
    }
}

impl fmt::Debug for Id {
    fn fmt(&self, f: &mut fmt::Formatter<'_>) -> fmt::Result {
        write!(f, "Id({self})")
    }
}

#[cfg(test)]
mod tests {
    use super::*;

    #[test]
    fn ids_of_three_and_four_bytes() {
        assert_eq!(Id::from(b"TT2").as_bytes(), b"TT2");
        assert_eq!(Id::of(0x0054_5432), Id::from(b"TT2"));
        assert_eq!(Id::of(0x5449_5432), Id::from(b"TIT2"));
        assert_ne!(Id::from(b"TT2"), Id::from(b"TT2\0"));
    }

    #[test]
    fn other_bytes_are_escaped() {
        assert_eq!(Id::from(b"T\xC3\xA9\n").to_string(), "T\\xc3\\xa9\\n");
    }
}
