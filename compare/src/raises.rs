//! One raise. The crate has nothing like it: what must come of it is worked out from the crate's reading of the tag, and
//! afterwards both must read the tag as before but for that one counter.
use crate::reads::Comparison;
use compare::answers::{Raise, Seen, Stop};
use compare::counters;
use compare::ids::{is_compressed, kind_of, wrapped, Kind};
use compare::listing::is_short;
use oracle::{Header, Item, Kind as Theirs, Reading, Stop as TheirStop};

/// The numbers with one of which a call must be refused.
pub type Numbers = Vec<u32>;

/// A user's one popularimeter and a sum for it.
pub struct Summed {
    /// The number of its top-level frame.
    pub frame: usize,
    /// The counter and the amount together.
    pub counter: u64,
    /// The bytes that the counter has, with the sum in them; nothing where they are too few.
    pub field: Option<Vec<u8>>,
}

/// A counter as it must be afterwards: the number of its top-level frame, its value, its bytes, and where they end in the tag.
struct Counted {
    frame: usize,
    counter: u64,
    field: Vec<u8>,
    end: usize,
}

impl Comparison<'_> {
    /// Has a counter raised, and compares the answer, the bytes, and what both read before and after.
    pub fn raise(&mut self, raise: &Raise) {
        let ours = self.library.read(&raise.tag);
        let raised = self.library.raise(raise);
        if self.library.is_waiting() {
            return;
        }
        self.met.raised[raised.number.min(44) as usize] += 1;
        self.must(raised.clean, "a raise changes a word that it should not");
        let theirs = oracle::read_past(&raise.tag);
        match foretold(raise, &ours, raised.roomless, &theirs) {
            Err(numbers) => {
                if !numbers.contains(&raised.number) {
                    self.fault(|| format!("a raise is answered {}, and {numbers:?} was foretold", raised.number));
                }
                self.must(raised.tag == raise.tag, "a refused raise changes the tag");
            }
            Ok(counted) => {
                self.must(raised.number == 0 && raised.counter == counted.counter, "the answer of a raise that fits");
                let mut expected = raise.tag.clone();
                replace_end(&mut expected[..counted.end], &counted.field);
                self.must(raised.tag == expected, "the bytes after a raise");
                self.read_again(&raised.tag, ours, theirs, &counted);
            }
        }
    }

    // what both read of the raised tag: what they read before, with that counter and its bytes
    fn read_again(&mut self, tag: &[u8], mut ours: Seen, mut theirs: Reading, counted: &Counted) {
        let after = self.library.read(tag);
        if self.library.is_waiting() {
            return;
        }
        let frame = &mut ours.frames[counted.frame];
        frame.numbers[1] = counted.counter;
        replace_end(&mut frame.body, &counted.field);
        self.must(after == ours, "this library's reading after a raise");
        let item = &mut theirs.items[counted.frame];
        replace_end(&mut item.body, &counted.field);
        if let Theirs::Popularimeter { counter, .. } = &mut item.kind {
            // of a longer field the crate takes the first eight bytes
            *counter = counters::first_eight(&counted.field);
        }
        self.must(oracle::read_past(tag) == theirs, "the crate's reading after a raise");
    }
}

/// Puts bytes over the last ones.
pub fn replace_end(bytes: &mut [u8], field: &[u8]) {
    let start = bytes.len() - field.len();
    bytes[start..].copy_from_slice(field);
}

// in the order of the numbers: what reading is refused with, 40, 41, 42, 43, 44
fn foretold(raise: &Raise, ours: &Seen, roomless: u32, theirs: &Reading) -> Result<Counted, Numbers> {
    let header = plain_header(&raise.tag, ours, roomless, theirs)?;
    let Summed { frame, counter, field } = summed(&raise.user, raise.amount, &theirs.items)?;
    let item = &theirs.items[frame];
    Ok(Counted { frame, counter, field: field.ok_or(vec![44])?, end: header.start + item.at + item.took })
}

/// The header of a plain tag, or what changing the tag is refused with. Where reading a 2.4 tag is refused, a flagged frame may
/// stand before that place, and 40 comes at it: there reading without a work buffer is refused with 14, if the frame has a body.
pub fn plain_header<'a>(tag: &[u8], ours: &Seen, roomless: u32, theirs: &'a Reading) -> Result<&'a Header, Numbers> {
    let header = match (&ours.header, &theirs.header) {
        (Ok(_), Ok(header)) => header,
        (Err(number), _) => return Err(vec![*number]),
        (Ok(_), Err(failure)) => return Err(vec![failure.number.into()]),
    };
    let whole = header.edition < 4 && header.flags & 0x80 != 0;
    match ours.stop {
        _ if whole => Err(vec![40]),
        Stop::Refused { .. } if roomless == 14 => Err(vec![40]),
        Stop::Refused { number, .. } if header.edition == 4 => Err(vec![number, 40]),
        Stop::Refused { number, .. } => Err(vec![number]),
        Stop::End { at } if !is_plain(tag, header, at, theirs) => Err(vec![40]),
        Stop::End { .. } => Ok(header),
    }
}

/// The one popularimeter of that user (41, 42), its counter and the amount together fitting 64 bits (43).
pub fn summed(user: &[u8], amount: u64, items: &[Item]) -> Result<Summed, Numbers> {
    let is_users = |item: &Item| matches!(&item.kind, Theirs::Popularimeter { user: other, .. } if other == user);
    let mut mine = items.iter().enumerate().filter(|(_, item)| is_users(item));
    let (frame, item) = match (mine.next(), mine.next()) {
        (Some(one), None) => one,
        (None, _) => return Err(vec![41]),
        _ => return Err(vec![42]),
    };
    let field = counters::field(&item.body).unwrap_or_default();
    let counter = counters::whole(field).and_then(|counter| counter.checked_add(amount)).ok_or(vec![43])?;
    Ok(Summed { frame, counter, field: bytes(counter, field.len()) })
}

// a number in so many bytes, zeros in front, where they hold it
fn bytes(number: u64, len: usize) -> Option<Vec<u8>> {
    let last = number.to_be_bytes();
    let fits = len >= 8 || number >> (8 * len) == 0;
    fits.then(|| [vec![0; len.saturating_sub(8)], last[8 - len.min(8)..].to_vec()].concat())
}

// all bytes there, neither flag 40 nor 80, plain frames, and zeros from their end on
fn is_plain(tag: &[u8], header: &Header, at: usize, theirs: &Reading) -> bool {
    tag.len() >= 10 + header.size as usize
        && header.flags & 0xC0 == 0
        && are_plain(header.edition, theirs)
        && tag[header.start + at..header.end].iter().all(|byte| *byte == 0)
}

// read to the end, and no frame compressed, flagged or short, at any depth
fn are_plain(edition: u8, reading: &Reading) -> bool {
    let ended = matches!(reading.stop, Some(TheirStop::End { .. }));
    ended && reading.items.iter().all(|item| is_plain_frame(edition, item))
}

/// Whether a frame, and each one in it, is neither compressed nor flagged nor short.
pub fn is_plain_frame(edition: u8, item: &Item) -> bool {
    let flagged = edition == 4 && item.flags & 2 != 0;
    let inside = match kind_of(edition, &item.id) {
        Kind::Chapter | Kind::Contents => oracle::run_of(&item.id, &item.body).unwrap_or_default(),
        _ => &[],
    };
    !is_compressed(edition, item.flags)
        && !flagged
        && !is_short(item)
        && (inside.is_empty() || are_plain(edition, &oracle::read_past(&wrapped(edition, inside))))
}
