//! The classes of differences that docs/DIFFERENCES.md lists, by the names that they have there.

/// A listed difference.
#[derive(Clone, Copy, Debug, PartialEq, Eq)]
#[allow(missing_docs)]
pub enum Class {
    TableNoEights,
    TableCut,
    TableWidths,
    TableOld,
    People,
    TextEncoding,
    Undecoded,
    Depth,
    Compressed,
    LongCounter,
    OldRva,
    PeopleWritten,
    TextNotHeld,
    RunNotHeld,
    /// Writing is refused here with this number.
    Refused(u32),
}

/// All of them, in the order of the report.
pub const ALL: [Class; 30] = [
    Class::TableNoEights,
    Class::TableCut,
    Class::TableWidths,
    Class::TableOld,
    Class::People,
    Class::TextEncoding,
    Class::Undecoded,
    Class::Depth,
    Class::Compressed,
    Class::LongCounter,
    Class::OldRva,
    Class::PeopleWritten,
    Class::TextNotHeld,
    Class::RunNotHeld,
    Class::Refused(21),
    Class::Refused(25),
    Class::Refused(12),
    Class::Refused(26),
    Class::Refused(27),
    Class::Refused(28),
    Class::Refused(29),
    Class::Refused(30),
    Class::Refused(31),
    Class::Refused(32),
    Class::Refused(33),
    Class::Refused(34),
    Class::Refused(22),
    Class::Refused(23),
    Class::Refused(24),
    Class::Refused(20),
];

impl Class {
    /// Its place among all.
    pub fn index(self) -> usize {
        ALL.iter().position(|class| *class == self).expect("every class stands among all")
    }

    /// Its name in the document.
    pub fn name(self) -> String {
        match self {
            Class::TableNoEights => "lookup table, widths whose sum is no multiple of 8, with references".into(),
            Class::TableCut => "lookup table, last reference cut".into(),
            Class::TableWidths => "lookup table, a width over 32, or a sum that is no multiple of 4".into(),
            Class::TableOld => "MLL, the 2.2 table".into(),
            Class::People => "TIPL, TMCL".into(),
            Class::TextEncoding => "a text that is not of its encoding".into(),
            Class::Undecoded => {
                "ids that are raw here and that the crate decodes itself, with a body that it cannot decode".into()
            }
            Class::Depth => "a frame at depth 9".into(),
            Class::Compressed => "compressed frames (outside the domain)".into(),
            Class::LongCounter => "popularimeter, a counter of more than eight bytes (outside the domain)".into(),
            Class::OldRva => "RVA in 2.2 with the altered mark".into(),
            Class::PeopleWritten => "TIPL, TMCL as text".into(),
            Class::TextNotHeld => "texts that the crate's strings do not hold".into(),
            Class::RunNotHeld => "runs of subframes that the crate's frames do not hold".into(),
            Class::Refused(number) => format!("writing refused here, {number}"),
        }
    }
}
