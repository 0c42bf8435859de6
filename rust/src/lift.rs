//! Raising a counter also where its frame has to grow.

use crate::sys::SV_COUNTER_WORDS;
use crate::{calls, Refusal};

/// Adds an amount to the counter of a user as [`raise`](crate::raise) does, and gives the new counter. Where the counter has
/// too few bytes for it, the frame is replaced, as by [`replace`](crate::replace): by a popularimeter of the same user and
/// rating with the new counter, without flags.
///
/// So a caller need not know which way it went. A refused lift changes nothing.
///
/// ```
/// use streamvault::{lift, raise, Content, Refusal, Version, Writer};
///
/// let mut writer = Writer::new(Version::Id3v24);
/// writer.add(b"POPM", &Content::Popularimeter { user: "adverts", rating: 0, counter: 254 })?;
/// let mut tag = writer.finish(1)?;
///
/// assert_eq!(lift(&mut tag, b"adverts", 1), Ok(255));
/// // one byte holds no more: the padding has another
/// assert_eq!(raise(&mut tag, b"adverts", 1), Err(Refusal::COUNTER_TOO_SHORT));
/// assert_eq!(lift(&mut tag, b"adverts", 1), Ok(256));
/// // and none is left
/// assert_eq!(lift(&mut tag, b"adverts", 65_280), Err(Refusal::NO_ROOM));
/// # Ok::<(), Refusal>(())
/// ```
///
/// # Errors
///
/// Those of [`raise`](crate::raise) in their order, and in place of [`Refusal::COUNTER_TOO_SHORT`] there is
/// [`Refusal::NO_ROOM`] where the frames together would be longer than the header's size; for a 2.2 frame whose body would be
/// too long [`Refusal::LONG_BODY`], and [`Refusal::TOO_LONG`] in a tag of 2^28 bytes and more.
pub fn lift(tag: &mut [u8], user: &[u8], amount: u64) -> Result<u64, Refusal> {
    let mut counter = [0; SV_COUNTER_WORDS];
    Refusal::of(calls::lift(tag, user, amount, &mut counter))?;
    Ok(counter[0])
}
