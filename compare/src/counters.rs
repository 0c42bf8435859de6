//! A popularimeter's counter, worked out from the bytes of a body: the number that it is, and the crate's.

/// What a counter that does not fit 64 bits is refused with.
pub const TOO_LARGE: u32 = 35;

/// The bytes of the counter: after the user, its zero and the rating. Nothing where zero or rating is missing.
pub fn field(body: &[u8]) -> Option<&[u8]> {
    let user = body.iter().position(|byte| *byte == 0)?;
    body.get(user + 2..)
}

/// All bytes as one number, highest first; nothing where it does not fit 64 bits.
pub fn whole(field: &[u8]) -> Option<u64> {
    field.iter().try_fold(0, |n: u64, byte| (n >> 56 == 0).then_some(n << 8 | u64::from(*byte)))
}

/// The number of the first eight bytes, the one that the crate answers.
pub fn first_eight(field: &[u8]) -> u64 {
    field.iter().take(8).fold(0, |n, byte| n << 8 | u64::from(*byte))
}

/// Whether a body's counter has more than eight bytes.
pub fn is_long(body: &[u8]) -> bool {
    field(body).is_some_and(|field| field.len() > 8)
}

/// Whether the first eight bytes of a counter are another number than all: there are more, and not all are 0.
pub fn is_other(body: &[u8]) -> bool {
    field(body).is_some_and(|field| whole(field) != Some(first_eight(field)))
}
