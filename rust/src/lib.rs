//! Reads and writes ID3v2 tags (2.2, 2.3 and 2.4) through a library that is proved to do what its definitions say.
//!
//! The library is written in Rattle and linked as a static library for x86-64 Linux; this crate is the thin layer over its
//! C interface. It decides nothing about the format: what a tag says, and what is refused, is the library's answer.
//!
//! - [`Meter`] reads the counters of a tag that lies in memory, and nothing else.
//! - [`header`] and [`Reader`] read all of it frame by frame, [`read`] at once.
//! - [`Writer`] makes a tag of records.
//! - [`raise`] adds to a counter in a tag, in place; [`lift`] also where that takes a longer frame.
//! - [`replace`], [`remove`] and [`append`] change one frame of a tag, in place.
//! - [`references`] unpacks a lookup table, [`Content::subframes`] what a chapter holds.
//! - A [`Refusal`] is a number with its name and its meaning.
//!
//! ```
//! use streamvault::{Content, Meter, Mode, Version, Writer};
//!
//! // write a tag
//! let mut writer = Writer::new(Version::Id3v23).mode(Mode::Crate);
//! writer.add(b"POPM", &Content::Popularimeter { user: b"room 7", rating: 0, counter: 90 })?;
//! let tag = writer.finish(16)?;
//!
//! // and read its counters
//! let mut minutes = 0;
//! let mut meter = Meter::open(&tag, Vec::new())?;
//! while let Some(popularimeter) = meter.next_popularimeter() {
//!     minutes += popularimeter?.counter;
//! }
//! assert_eq!(minutes, 90);
//! assert!(meter.ending().is_whole());
//! # Ok::<(), streamvault::Refusal>(())
//! ```

#![warn(missing_docs)]

pub mod calls;
mod edit;
mod id;
mod kinds;
mod lift;
mod meter;
mod raise;
mod reader;
mod record;
mod refusal;
mod state;
mod subframes;
pub mod sys;
mod work;
mod writer;

pub use edit::{append, remove, replace};
pub use id::Id;
pub use kinds::{Encoding, Kind, Mode, Version};
pub use lift::lift;
pub use meter::{Ending, Meter, Popularimeter};
pub use raise::raise;
pub use reader::{header, read, Header, Reader, Records};
pub use record::{references, Content, Frame, Record, Reference, Table};
pub use refusal::Refusal;
pub use subframes::Subframes;
pub use work::Work;
pub use writer::Writer;

/// The examples of the package's README are run as tests.
#[cfg(doctest)]
#[doc = include_str!("../README.md")]
struct Readme;
