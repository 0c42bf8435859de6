//! Lifting a counter: as a raise wherever that is not refused with 44, and else in a new frame. What is promised of it, over
//! generated tags of the plain sort.

mod common;

use common::layout::{counted, frame, head, lifted, raised, tag, EDITIONS};
use common::plain::{amount, counters, everything, plain_tag, user, with_counter};
use common::{Numbers, LONG_COUNTER};
use streamvault::{calls, header, lift, Content, Mode, Refusal, Version, Writer};

/// A tag with the popularimeter of `a`, of these counter bytes, and so many zeros after it.
fn of_a(edition: u8, counter: &[u8], padding: usize) -> Vec<u8> {
    tag(edition, 0, &[counted(edition, b"a", counter), vec![0; padding]].concat())
}

/// What lifting `a` by an amount answers.
fn answer(tag: &[u8], amount: u64) -> u32 {
    lifted(tag, b"a", amount).err().unwrap_or(0)
}

// ---- 20 in place of 44

#[test]
fn a_counter_takes_as_many_bytes_as_it_needs() {
    for edition in EDITIONS {
        for n in 0..8_usize {
            let most = vec![255; n];
            let sum = 1_u64 << (8 * n);
            let full = [&[1][..], &vec![0; n]].concat();
            for padding in 1..4 {
                assert_eq!(raised(&of_a(edition, &most, padding), b"a", 1), Err(44));
                let want = of_a(edition, &full, padding - 1);
                assert_eq!(lifted(&of_a(edition, &most, padding), b"a", 1), Ok((sum, want)), "{n} in 2.{edition}");
            }
            assert_eq!(answer(&of_a(edition, &most, 0), 1), 20);
        }
        // several bytes more at once: exact fit, and one too many
        let sum = u64::MAX - 7;
        let want = of_a(edition, &sum.to_be_bytes(), 0);
        assert_eq!(lifted(&of_a(edition, &[3], 7), b"a", sum - 3), Ok((sum, want)));
        assert_eq!(answer(&of_a(edition, &[3], 6), sum - 3), 20);
    }
}

#[test]
fn no_counter_bytes_become_some() {
    for edition in EDITIONS {
        assert_eq!(lifted(&of_a(edition, &[], 1), b"a", 1), Ok((1, of_a(edition, &[1], 0))));
        assert_eq!(lifted(&of_a(edition, &[], 1), b"a", 0), Ok((0, of_a(edition, &[], 1))));
        assert_eq!(answer(&of_a(edition, &[], 1), 256), 20);
        assert_eq!(answer(&of_a(edition, &[], 2), 256), 0);
    }
}

#[test]
fn what_fits_stays_in_its_bytes() {
    for edition in EDITIONS {
        for (counter, amount) in [(&[254][..], 1), (&[0, 255], 1), (&LONG_COUNTER, u64::MAX - 65_280), (&[255], 0)] {
            let tag = of_a(edition, counter, 9);
            assert_eq!(lifted(&tag, b"a", amount), raised(&tag, b"a", amount));
            assert_eq!(answer(&tag, amount), 0);
        }
    }
}

#[test]
fn the_sum_fits_64_bits_before_all_else() {
    for edition in EDITIONS {
        for padding in [0, 20] {
            assert_eq!(answer(&of_a(edition, &[255], padding), u64::MAX), 43);
            assert_eq!(answer(&of_a(edition, &[255; 8], padding), 1), 43);
        }
        assert_eq!(answer(&of_a(edition, &[255], 0), u64::MAX - 255), 20);
        assert_eq!(answer(&of_a(edition, &[255], 7), u64::MAX - 255), 0);
    }
}

#[test]
fn users_that_are_absent_or_twice_and_what_is_not_plain() {
    for edition in EDITIONS {
        let one = counted(edition, b"a", &[255]);
        let with = |frames: &[&[u8]], last: &[u8]| tag(edition, 0, &[&frames.concat()[..], &[0; 9], last].concat());
        assert_eq!(answer(&with(&[&one], b""), 1), 0);
        assert_eq!(answer(&with(&[&one, &one], b""), 1), 42);
        assert_eq!(answer(&with(&[&counted(edition, b"b", &[255])], b""), 1), 41);
        assert_eq!(answer(&with(&[&one], b"A"), 1), 40);
        assert_eq!(answer(&with(&[&one, &head(edition, b"\xFFAAA", 0, 0)], b"A"), 1), 7);
        let whole = with(&[&one], b"");
        assert_eq!(answer(&whole[..whole.len() - 1], 1), 40);
    }
}

#[test]
fn too_few_words_are_refused_before_all_else() {
    let mut bytes = of_a(4, &[255], 3);
    let before = bytes.clone();
    assert_eq!(calls::lift(&mut bytes, b"a", 1, &mut []), 20);
    assert_eq!(calls::lift(&mut [], b"", 1, &mut []), 20);
    assert_eq!(bytes, before);
    assert_eq!(calls::lift(&mut bytes, b"a", 1, &mut [0]), 0);
    assert_eq!(bytes, of_a(4, &[1, 0], 2));
}

/// A body of 2.2 has at most 2^24 - 1 bytes.
#[test]
fn a_frame_of_2_2_that_would_be_too_long() {
    let largest = (1 << 24) - 1;
    for (body, want) in [(largest, Err(Refusal::LONG_BODY)), (largest - 1, Ok(256))] {
        let user = vec![b'u'; body - 3];
        let mut writer = Writer::new(Version::Id3v22).mode(Mode::Off);
        writer.add(b"POP", &Content::Popularimeter { user: &user, rating: 1, counter: 255 }).unwrap();
        let mut tag = writer.finish(4).unwrap();
        let before = tag.clone();
        assert_eq!(lift(&mut tag, &user, 1), want);
        assert_eq!(tag == before, want.is_err());
    }
}

// ---- the new frame

#[test]
fn the_new_frame_has_the_user_and_the_rating_and_no_flags() {
    for flags in [0, 0x01, 0xB0, 0xB1] {
        let length: &[u8] = if flags & 1 == 1 { b"\x01\x02\x03\x04" } else { b"" };
        let old = frame(4, b"POPM", flags, &[length, b"caf\xE9\0\x07\xFF"].concat());
        let new = frame(4, b"POPM", 0, b"caf\xE9\0\x07\x01\0");
        let other = frame(4, b"TIT2", 0x80, b"\0A");
        // a data length goes, so that a lift can free bytes
        let padding = new.len().saturating_sub(old.len());
        let before = tag(4, 0x20, &[&other[..], &old, &other, &vec![0; padding]].concat());
        let zeros = vec![0; before.len() - 10 - 2 * other.len() - new.len()];
        let want = tag(4, 0x20, &[&other[..], &new, &other, &zeros].concat());
        assert_eq!(lifted(&before, b"caf\xE9", 1), Ok((256, want)), "{flags:02X}");
    }
}

#[test]
fn bytes_after_the_tag_are_neither_looked_at_nor_changed() {
    for edition in EDITIONS {
        for behind in [&b"\xFF\xFB\x90\x64 sound"[..], b"ID3\x04\0\0\0\0\0\0", b"\0\0\0\0"] {
            let with = |tag: Vec<u8>| [&tag, behind].concat();
            let want = with(of_a(edition, &[1, 0], 1));
            assert_eq!(lifted(&with(of_a(edition, &[255], 2)), b"a", 1), Ok((256, want)));
            assert_eq!(answer(&with(of_a(edition, &[255], 0)), 1), 20);
        }
    }
}

// ---- over generated tags

const GENERATED: u64 = 2000;

/// What is promised: as a raise but for 44, and there in a new frame or 20, as the room has it.
#[test]
fn a_lift_is_a_raise_or_a_new_frame() {
    let mut answers = [0; 50];
    let mut new_frames = 0;
    for seed in 0..GENERATED {
        let mut numbers = Numbers(seed);
        let tag = plain_tag(&mut numbers);
        let (user, amount) = (user(&mut numbers), amount(&mut numbers));
        let (raise, lift) = (raised(&tag, &user, amount), lifted(&tag, &user, amount));
        answers[lift.as_ref().err().copied().unwrap_or(0) as usize] += 1;
        if raise != Err(44) {
            assert_eq!(lift, raise);
            continue;
        }
        let Ok((sum, bytes)) = lift else {
            assert_eq!(lift, Err(20), "{seed}");
            continue;
        };
        new_frames += 1;
        let (before, after) = (everything(&tag), everything(&bytes));
        let records =
            |read: &common::plain::Read| read.1.iter().map(|(_, _, record)| record.clone()).collect::<Vec<_>>();
        assert_eq!(records(&after), records(&with_counter(before, &user, sum)));
        let end = header(&tag).unwrap().tag_len();
        assert_eq!((&bytes[..10], &bytes[end..], bytes.len()), (&tag[..10], &tag[end..], tag.len()));
        assert_eq!(lifted(&bytes, &user, 0), Ok((sum, bytes.clone())));
    }
    for number in [0, 20, 41, 42, 43] {
        assert!(answers[number] > 5, "{number}: {answers:?}");
    }
    assert!(answers[44] == 0 && new_frames > 20, "{answers:?} {new_frames}");
}

#[test]
fn two_lifts_for_two_users_come_to_the_same_in_both_orders() {
    let (mut both, mut one) = (0, 0);
    for seed in 0..2 * GENERATED {
        let mut numbers = Numbers(seed);
        let tag = plain_tag(&mut numbers);
        let [mine, other] = [(); 2].map(|()| user(&mut numbers));
        let [more, their] = [(); 2].map(|()| amount(&mut numbers));
        if mine == other {
            continue;
        }
        let in_order = |first: (&[u8], u64), second: (&[u8], u64)| {
            let (_, between) = lifted(&tag, first.0, first.1)?;
            assert_eq!(counters(&everything(&between), second.0), counters(&everything(&tag), second.0));
            lifted(&between, second.0, second.1).map(|(_, end)| end)
        };
        match (in_order((&mine, more), (&other, their)), in_order((&other, their), (&mine, more))) {
            (Ok(end), Ok(same)) => {
                assert_eq!(end, same, "{seed}");
                both += 1;
            }
            (Ok(_), Err(number)) | (Err(number), Ok(_)) => {
                assert_eq!(number, 20, "{seed}");
                one += 1;
            }
            _ => {}
        }
    }
    assert!(both > 50, "{both} {one}");
}

#[test]
fn one_order_can_lack_room() {
    // a lift of `a` frees three bytes, since the data length goes
    let a = frame(4, b"POPM", 1, b"\0\0\0\x04a\0\x07\xFF");
    let before = tag(4, 0, &[a, counted(4, b"b", &[255])].concat());
    assert_eq!(lifted(&before, b"b", 1), Err(20));
    let (_, between) = lifted(&before, b"a", 1).unwrap();
    let want = [counted(4, b"a", &[1, 0]), counted(4, b"b", &[1, 0]), vec![0; 2]].concat();
    assert_eq!(lifted(&between, b"b", 1), Ok((256, tag(4, 0, &want))));
}

#[test]
fn two_lifts_for_one_user_add_up() {
    let mut both = 0;
    for seed in 0..GENERATED {
        let mut numbers = Numbers(seed);
        let tag = plain_tag(&mut numbers);
        let user = user(&mut numbers);
        let [first, second] = [(); 2].map(|()| amount(&mut numbers) / 2);
        let Ok((_, one)) = lifted(&tag, &user, first) else { continue };
        let Ok(two) = lifted(&one, &user, second) else { continue };
        assert_eq!(lifted(&tag, &user, first + second), Ok(two));
        both += 1;
    }
    assert!(both > 50, "{both}");
}
