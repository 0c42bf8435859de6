//! Raising a counter in place.

use crate::sys::SV_COUNTER_WORDS;
use crate::{calls, Refusal};

/// Adds an amount to the counter of the one popularimeter of the top level that has this user, and gives the new counter.
///
/// The counter keeps its bytes, with zeros in front, and no other byte changes: the tag reads as before with that one
/// counter replaced. A refused raise changes nothing. What follows the tag may be lent with it, and is not looked at.
///
/// ```
/// use streamvault::{raise, Content, Mode, Refusal, Version, Writer};
///
/// let mut writer = Writer::new(Version::Id3v24).mode(Mode::Off);
/// writer.add(b"POPM", &Content::Popularimeter { user: "room 7", rating: 0, counter: 65_280 })?;
/// writer.add(b"POPM", &Content::Popularimeter { user: "adverts", rating: 0, counter: 254 })?;
/// let mut tag = writer.finish(16)?;
///
/// assert_eq!(raise(&mut tag, b"room 7", 90), Ok(65_370));
/// assert_eq!(raise(&mut tag, b"adverts", 1), Ok(255));
/// // one counter byte holds no more, and nobody has the other user
/// assert_eq!(raise(&mut tag, b"adverts", 1), Err(Refusal::COUNTER_TOO_SHORT));
/// assert_eq!(raise(&mut tag, b"room 8", 1), Err(Refusal::USER_ABSENT));
/// # Ok::<(), Refusal>(())
/// ```
///
/// # Errors
///
/// What reading the tag is refused with; [`Refusal::NOT_PLAIN`] where it is not of the plain sort, and at once where reading
/// would resynchronise; then [`Refusal::USER_ABSENT`], [`Refusal::USER_TWICE`], [`Refusal::SUM_TOO_LARGE`] and
/// [`Refusal::COUNTER_TOO_SHORT`], where [`lift`](crate::lift) goes on with a longer frame.
///
/// Plain is a tag of which all bytes are there, without extended header, unsynchronisation and compression, with no frame
/// cut short, also inside chapters, and with only zeros after the last frame: one written with [`Mode::Off`], for example.
///
/// [`Mode::Off`]: crate::Mode::Off
pub fn raise(tag: &mut [u8], user: &[u8], amount: u64) -> Result<u64, Refusal> {
    let mut counter = [0; SV_COUNTER_WORDS];
    Refusal::of(calls::raise(tag, user, amount, &mut counter))?;
    Ok(counter[0])
}
