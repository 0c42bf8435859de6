//! What a raise promises, over generated tags of the plain sort: what is read then, what other users read and are answered,
//! and two raises one after the other.

mod common;

use common::layout::raised;
use common::plain::{amount, counters, everything, plain_tag, user, with_counter};
use common::Numbers;
use streamvault::{Content, Reader};

/// The places of the counter bytes of a user's popularimeter, by what a reader lends.
fn field(tag: &[u8], of: &[u8]) -> std::ops::Range<usize> {
    let mut reader = Reader::open(tag, Vec::new()).unwrap();
    while let Some(Ok(frame)) = reader.next_frame() {
        if let Content::Popularimeter { user, .. } = frame.content {
            if user == of {
                let start = frame.body.as_ptr() as usize - tag.as_ptr() as usize;
                return start + user.len() + 2..start + frame.body.len();
            }
        }
    }
    panic!("no popularimeter of that user");
}

/// What request f has for a tag that is plain, from what is read of it.
fn wanted(tag: &[u8], user: &[u8], amount: u64) -> Result<u64, u32> {
    let (count, counter) = counters(&everything(tag), user);
    match count {
        0 => return Err(41),
        1 => {}
        _ => return Err(42),
    }
    let sum = counter.checked_add(amount).ok_or(43_u32)?;
    let bytes = field(tag, user).len();
    if bytes < 8 && sum >> (8 * bytes) != 0 {
        return Err(44);
    }
    Ok(sum)
}

const GENERATED: u64 = 2000;

#[test]
fn a_raised_tag_reads_as_before_with_that_one_counter_replaced() {
    let mut answers = [0; 50];
    for seed in 0..GENERATED {
        let mut numbers = Numbers(seed);
        let tag = plain_tag(&mut numbers);
        let (user, amount) = (user(&mut numbers), amount(&mut numbers));
        let done = raised(&tag, &user, amount);
        assert_eq!(done.as_ref().map(|(sum, _)| *sum).map_err(|number| *number), wanted(&tag, &user, amount), "{seed}");
        answers[done.as_ref().err().copied().unwrap_or(0) as usize] += 1;
        let Ok((sum, bytes)) = done else { continue };
        assert_eq!(everything(&bytes), with_counter(everything(&tag), &user, sum));
        let field = field(&tag, &user);
        assert_eq!((&bytes[..field.start], &bytes[field.end..]), (&tag[..field.start], &tag[field.end..]));
    }
    for number in [0, 41, 42, 43, 44] {
        assert!(answers[number] > 5, "{number}: {answers:?}");
    }
}

#[test]
fn what_another_user_reads_and_is_answered_is_the_same() {
    let mut both = 0;
    for seed in 0..GENERATED {
        let mut numbers = Numbers(seed);
        let tag = plain_tag(&mut numbers);
        let [mine, other] = [(); 2].map(|()| user(&mut numbers));
        let [more, their] = [(); 2].map(|()| amount(&mut numbers));
        if mine == other {
            continue;
        }
        let Ok((_, one)) = raised(&tag, &mine, more) else { continue };
        assert_eq!(counters(&everything(&one), &other), counters(&everything(&tag), &other));
        let (before, after) = (raised(&tag, &other, their), raised(&one, &other, their));
        assert_eq!(before.as_ref().map(|(sum, _)| sum), after.as_ref().map(|(sum, _)| sum));
        // in the other order the tag is the same in the end
        if let (Ok((_, theirs)), Ok((_, end))) = (before, after) {
            assert_eq!(raised(&theirs, &mine, more).unwrap().1, end);
            both += 1;
        }
    }
    assert!(both > 20, "{both}");
}

#[test]
fn two_raises_for_one_user_add_up() {
    let mut both = 0;
    for seed in 0..GENERATED {
        let mut numbers = Numbers(seed);
        let tag = plain_tag(&mut numbers);
        let user = user(&mut numbers);
        let [first, second] = [(); 2].map(|()| amount(&mut numbers) / 2);
        let Ok((_, one)) = raised(&tag, &user, first) else { continue };
        let Ok(two) = raised(&one, &user, second) else { continue };
        assert_eq!(raised(&tag, &user, first + second), Ok(two));
        both += 1;
    }
    assert!(both > 50, "{both}");
}
