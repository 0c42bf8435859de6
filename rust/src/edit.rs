//! One frame of a tag replaced, removed or added, in place.

use crate::record::Handed;
use crate::{calls, Content, Id, Refusal};

/// Puts a frame in the place of the frame of the top level that has this number, from 0. It is given as to
/// [`Writer::add`](crate::Writer::add), and written as by a writer with [`Mode::Off`].
///
/// Later frames are moved up or down as they are, and padding shrinks or grows: the tag reads as before with that one frame
/// replaced, and has its length. A refused edit changes nothing. What follows the tag may be lent with it, is not looked at
/// and never changes.
///
/// ```
/// use streamvault::{read, replace, Content, Encoding, Refusal, Version, Writer};
///
/// let title = |text| Content::Text { encoding: Encoding::Utf8, text };
/// let mut writer = Writer::new(Version::Id3v24);
/// writer.add(b"TIT2", &title("May"))?;
/// writer.add(b"POPM", &Content::Popularimeter { user: "room 7", rating: 0, counter: 90 })?;
/// let mut tag = writer.finish(2)?;
///
/// replace(&mut tag, 0, b"TIT2", &title("March"))?;
/// let records = read(&tag)?;
/// assert_eq!(records[0].content, title("March").map(|text| text.as_bytes().to_vec()));
/// assert_eq!(records[1].content, Content::Popularimeter { user: b"room 7".to_vec(), rating: 0, counter: 90 });
///
/// // the padding is used up, and frames have the numbers 0 and 1
/// assert_eq!(replace(&mut tag, 0, b"TIT2", &title("August")), Err(Refusal::NO_ROOM));
/// assert_eq!(replace(&mut tag, 2, b"TIT2", &title("May")), Err(Refusal::NO_SUCH_FRAME));
/// # Ok::<(), Refusal>(())
/// ```
///
/// # Errors
///
/// What reading the tag is refused with; [`Refusal::NOT_PLAIN`] where it is not of the plain sort, as for
/// [`raise`](crate::raise); then [`Refusal::NO_SUCH_FRAME`]; then what a writer refuses the frame with, in the tag's edition;
/// last [`Refusal::NO_ROOM`], exactly where the frames together are longer than the header's size.
///
/// [`Mode::Off`]: crate::Mode::Off
pub fn replace<B: AsRef<[u8]>>(
    tag: &mut [u8],
    number: u64,
    id: impl Into<Id>,
    content: &Content<B>,
) -> Result<(), Refusal> {
    let handed = Handed::new(id.into(), false, false, content.borrowed());
    Refusal::of(calls::replace(tag, number, handed.given()))
}

/// Takes the frame of the top level away that has this number, from 0. Later frames are moved up as they are, and what that
/// frees is padding.
///
/// ```
/// use streamvault::{append, read, remove, Content, Refusal, Version, Writer};
///
/// let mut writer = Writer::new(Version::Id3v23);
/// writer.add(b"PRIV", &Content::Raw { body: b"some bytes" })?;
/// writer.add(b"POPM", &Content::Popularimeter { user: "room 7", rating: 0, counter: 90 })?;
/// let mut tag = writer.finish(0)?;
///
/// remove(&mut tag, 0)?;
/// assert_eq!(read(&tag)?.len(), 1);
/// assert_eq!(tag[tag.len() - 20..], [0; 20]);
/// // the freed bytes serve the next frame
/// append(&mut tag, b"PRIV", &Content::Raw { body: b"others" })?;
/// assert_eq!(remove(&mut tag, 2), Err(Refusal::NO_SUCH_FRAME));
/// # Ok::<(), Refusal>(())
/// ```
///
/// # Errors
///
/// As for [`replace`], up to [`Refusal::NO_SUCH_FRAME`].
pub fn remove(tag: &mut [u8], number: u64) -> Result<(), Refusal> {
    Refusal::of(calls::remove(tag, number))
}

/// Puts a frame after the last one, in the padding. It is given and written as by [`replace`].
///
/// ```
/// use streamvault::{append, raise, remove, Content, Refusal, Version, Writer};
///
/// let mut tag = Writer::new(Version::Id3v24).finish(30)?;
/// let before = tag.clone();
/// append(&mut tag, b"POPM", &Content::Popularimeter { user: "adverts", rating: 0, counter: 1 })?;
/// assert_eq!(raise(&mut tag, b"adverts", 2), Ok(3));
/// remove(&mut tag, 0)?;
/// assert_eq!(tag, before);
/// # Ok::<(), Refusal>(())
/// ```
///
/// # Errors
///
/// As for [`replace`], without [`Refusal::NO_SUCH_FRAME`].
pub fn append<B: AsRef<[u8]>>(tag: &mut [u8], id: impl Into<Id>, content: &Content<B>) -> Result<(), Refusal> {
    let handed = Handed::new(id.into(), false, false, content.borrowed());
    Refusal::of(calls::append(tag, handed.given()))
}
