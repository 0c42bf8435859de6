//! Tags laid out byte by byte, raised and lifted in both ways, and edited.

use streamvault::{append, calls, lift, raise, remove, replace, Content, Id, Refusal};

pub const EDITIONS: [u8; 3] = [2, 3, 4];

/// A tag of these bytes after its header.
pub fn tag(edition: u8, flags: u8, region: &[u8]) -> Vec<u8> {
    let size = region.len();
    [&[b'I', b'D', b'3', edition, 0, flags, 0, 0, (size >> 7) as u8, size as u8 & 0x7F], region].concat()
}

/// The header of a frame. Of its flags only the low byte is looked at; 2.2 has none.
pub fn head(edition: u8, id: &[u8], flags: u8, size: usize) -> Vec<u8> {
    assert!(size < 0x80);
    match edition {
        2 => [&id[..3], &[0, 0, size as u8]].concat(),
        _ => [&id[..4], &[0, 0, 0, size as u8, 0, flags]].concat(),
    }
}

/// A frame that is whole.
pub fn frame(edition: u8, id: &[u8], flags: u8, body: &[u8]) -> Vec<u8> {
    [&head(edition, id, flags, body.len())[..], body].concat()
}

/// A popularimeter with these counter bytes; in 2.2 its id is the first three letters.
pub fn counted(edition: u8, user: &[u8], counter: &[u8]) -> Vec<u8> {
    frame(edition, b"POPM", 0, &[user, &[0, 7], counter].concat())
}

/// A chapter with an empty element id, and this run of subframes.
pub fn chapter(edition: u8, run: &[u8]) -> Vec<u8> {
    frame(edition, b"CHAP", 0, &[&[0; 17], run].concat())
}

/// The new counter and the tag then, or the refusal's number.
pub fn raised(tag: &[u8], user: &[u8], amount: u64) -> Result<(u64, Vec<u8>), u32> {
    in_both_ways(calls::raise, raise, tag, user, amount)
}

/// The same by a lift.
pub fn lifted(tag: &[u8], user: &[u8], amount: u64) -> Result<(u64, Vec<u8>), u32> {
    in_both_ways(calls::lift, lift, tag, user, amount)
}

/// The C call and the safe function answer the same; a refusal changes neither the tag nor the word, and the words after the
/// first never change.
fn in_both_ways(
    call: impl Fn(&mut [u8], &[u8], u64, &mut [u64]) -> u32,
    safe: impl Fn(&mut [u8], &[u8], u64) -> Result<u64, Refusal>,
    tag: &[u8],
    user: &[u8],
    amount: u64,
) -> Result<(u64, Vec<u8>), u32> {
    const WORD: u64 = 0xA5A5_A5A5_A5A5_A5A5;
    let (mut bytes, mut words, mut others) = (tag.to_vec(), [WORD; 2], tag.to_vec());
    let answer = call(&mut bytes, user, amount, &mut words);
    let safe = safe(&mut others, user, amount);
    assert_eq!((words[1], &bytes), (WORD, &others));
    match safe {
        Ok(counter) => {
            assert_eq!((answer, words[0]), (0, counter));
            Ok((counter, bytes))
        }
        Err(refusal) => {
            assert_eq!((answer, words[0]), (refusal.number(), WORD));
            assert_eq!(bytes, tag);
            Err(answer)
        }
    }
}

/// One edit of a tag.
#[derive(Clone, Debug)]
pub enum Edit {
    Replace(u64, Id, Content<Vec<u8>>),
    Remove(u64),
    Append(Id, Content<Vec<u8>>),
}

/// The tag after an edit, or the refusal's number: then it is as it was.
pub fn edited(tag: &[u8], edit: &Edit) -> Result<Vec<u8>, u32> {
    let mut bytes = tag.to_vec();
    let done = match edit {
        Edit::Replace(number, id, content) => replace(&mut bytes, *number, *id, content),
        Edit::Remove(number) => remove(&mut bytes, *number),
        Edit::Append(id, content) => append(&mut bytes, *id, content),
    };
    if let Err(refusal) = done {
        assert_eq!(bytes, tag);
        return Err(refusal.number());
    }
    Ok(bytes)
}

/// A raw record under this id, of so many bytes.
pub fn raw(len: usize) -> Content<Vec<u8>> {
    Content::Raw { body: vec![b'x'; len] }
}
