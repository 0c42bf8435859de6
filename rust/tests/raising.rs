//! Raising a counter, through the C call and the safe function: every refusal with the smallest tag that meets it, which of
//! them comes first, and what the counter's bytes hold.

mod common;

use common::layout::{chapter, counted, frame, head, raised, tag, EDITIONS};
use common::{LARGE_COUNTER, LONG_COUNTER, VERSIONS};
use streamvault::{calls, raise, Content, Encoding, Id, Mode, Refusal, Version, Writer};

/// Those that have flags and chapters.
const LATER: [u8; 2] = [3, 4];

/// Frames one after the other.
fn run<const N: usize>(frames: [Vec<u8>; N]) -> Vec<u8> {
    frames.concat()
}

/// A tag with the popularimeter of the user `a`, of these counter bytes, and nothing else.
fn of_a(counter: &[u8]) -> Vec<u8> {
    tag(4, 0, &counted(4, b"a", counter))
}

/// What raising by 1 answers: 0, or the refusal's number.
fn answer(tag: &[u8], user: &[u8]) -> u32 {
    raised(tag, user, 1).err().unwrap_or(0)
}

/// A refusal is met by the first tag, and the second, which is the nearest without it, is answered otherwise.
#[track_caller]
fn met(number: u32, smallest: &[u8], nearest: &[u8], otherwise: u32) {
    assert_eq!((answer(smallest, b"a"), answer(nearest, b"a")), (number, otherwise), "{smallest:02X?} {nearest:02X?}");
}

// ---- each refusal of reading: what is not refused has no popularimeter of that user

#[test]
fn refusals_of_the_header() {
    met(1, b"ID3\x04\0\0\0\0\0", b"ID3\x04\0\0\0\0\0\0", 41);
    met(1, b"ID4\x04\0\0\0\0\0\0", b"ID3\x04\0\0\0\0\0\0", 41);
    met(2, &tag(1, 0, b""), &tag(2, 0, b""), 41);
    met(2, &tag(5, 0, b""), &tag(4, 0, b""), 41);
    for edition in EDITIONS {
        for flag in [1, 2, 4, 8] {
            met(3, &tag(edition, flag, b""), &tag(edition, 0x10, b""), 41);
        }
    }
    met(4, &tag(2, 0x40, b""), &tag(2, 0x20, b""), 41);
    for edition in LATER {
        met(5, &tag(edition, 0x40, &[0; 5]), &tag(edition, 0x40, &[0; 6]), 6);
        met(6, &tag(edition, 0x40, b"\0\0\0\x05\0\0"), &tag(edition, 0x40, b"\0\0\0\x06\0\0"), 40);
    }
}

#[test]
fn refusals_of_a_frame_header() {
    for edition in EDITIONS {
        met(7, &tag(edition, 0, &head(edition, b"A\xFFAA", 0, 0)), &tag(edition, 0, &head(edition, b"AAAA", 0, 0)), 41);
    }
    for (edition, encrypted, grouped) in [(3, 0x40, 0x20), (4, 0x04, 0x40)] {
        let flagged = |flags| tag(edition, 0, &head(edition, b"AAAA", flags, 0));
        met(8, &flagged(encrypted), &flagged(0x10), 41);
        met(8, &flagged(encrypted | grouped), &flagged(grouped), 9);
        met(9, &flagged(grouped), &flagged(0), 41);
    }
    met(5, &tag(3, 0, &head(3, b"AAAA", 0, 1)), &tag(3, 0, &head(3, b"AAAA", 0, 0)), 41);
    let with_length =
        |edition, flags, size, len| tag(edition, 0, &[head(edition, b"AAAA", flags, size), vec![0; len]].concat());
    met(5, &with_length(4, 1, 4, 3), &with_length(4, 1, 4, 4), 41);
    met(5, &with_length(3, 0x80, 4, 3), &with_length(3, 0x80, 4, 4), 40);
    met(10, &with_length(3, 0x80, 3, 4), &with_length(3, 0x80, 4, 4), 40);
}

#[test]
fn refusals_of_a_body() {
    let table = |bits: [u8; 2]| [&[0; 8], &bits[..]].concat();
    for edition in EDITIONS {
        let body = |id: &[u8], body: &[u8]| tag(edition, 0, &frame(edition, id, 0, body));
        let lookup = if edition == 2 { b"MLL\0" } else { b"MLLT" };
        met(11, &body(b"TIT2", b""), &body(b"TIT2", b"\0"), 41);
        met(12, &body(b"TIT2", b"\x04"), &body(b"TIT2", b"\x03"), 41);
        met(11, &body(b"POPM", b""), &body(b"POPM", b"\0\0"), 41);
        met(11, &body(b"POPM", b"b"), &body(b"POPM", b"b\0\0"), 41);
        met(11, &body(b"POPM", b"b\0"), &body(b"POPM", b"b\0\0"), 41);
        let counter = |bytes: &[u8]| body(b"POPM", &[b"b\0\0", bytes].concat());
        met(35, &counter(&LARGE_COUNTER), &counter(b"\0\xFF\xFF\xFF\xFF\xFF\xFF\xFF\xFF"), 41);
        met(11, &body(lookup, &[0; 9]), &body(lookup, &table([1, 3])), 41);
        met(30, &body(lookup, &table([0, 4])), &body(lookup, &table([1, 3])), 41);
        met(30, &body(lookup, &table([33, 3])), &body(lookup, &table([32, 4])), 41);
        met(31, &body(lookup, &table([1, 2])), &body(lookup, &table([1, 3])), 41);
    }
    for edition in LATER {
        let body = |id: &[u8], body: &[u8]| tag(edition, 0, &frame(edition, id, 0, body));
        met(11, &body(b"CHAP", &[0; 16]), &body(b"CHAP", &[0; 17]), 41);
        met(11, &body(b"CTOC", b"\0\0"), &body(b"CTOC", b"\0\0\0"), 41);
        met(11, &body(b"CTOC", b"\0\0\x01b"), &body(b"CTOC", b"\0\0\x01b\0"), 41);
        let inside = |text: &[u8]| tag(edition, 0, &chapter(edition, &frame(edition, b"TIT2", 0, text)));
        met(12, &inside(b"\x04"), &inside(b"\x03"), 41);
    }
}

#[test]
fn depth_nine_is_refused_and_depth_eight_is_not() {
    for edition in LATER {
        // bodies are too long for the sizes of `head`
        let nested = |depth: usize| {
            let innermost = frame(edition, b"TIT2", 0, b"\0");
            (1..depth).fold(innermost, |run, _| {
                let size = 17 + run.len();
                let bytes = if edition == 3 { [size >> 8, size & 0xFF] } else { [size >> 7, size & 0x7F] };
                [b"CHAP\0\0", &bytes.map(|byte| byte as u8)[..], &[0; 19], &run].concat()
            })
        };
        met(13, &tag(edition, 0, &nested(9)), &tag(edition, 0, &nested(8)), 41);
    }
}

// ---- 40: what is not plain, and what is

#[test]
fn a_missing_byte_is_not_plain() {
    for edition in EDITIONS {
        let padded = tag(edition, 0, &[0; 20]);
        for len in 10..padded.len() {
            met(40, &padded[..len], &padded, 41);
        }
        // in the middle of the padding, with the user there
        let whole = tag(edition, 0, &[counted(edition, b"a", &[1]), vec![0; 12]].concat());
        for missing in 1..=12 {
            met(40, &whole[..whole.len() - missing], &whole, 0);
        }
    }
}

#[test]
fn flags_of_the_tag_are_not_plain_but_two() {
    for edition in EDITIONS {
        let flagged = |flags| tag(edition, flags, &counted(edition, b"a", &[1]));
        met(40, &flagged(0x80), &flagged(0), 0);
        met(40, &flagged(0xB0), &flagged(0x30), 0);
    }
    for edition in LATER {
        let extended = |flags| tag(edition, flags, &[&b"\0\0\0\x06\0\0"[..], &counted(edition, b"a", &[1])].concat());
        assert_eq!(answer(&extended(0x40), b"a"), 40);
        assert_eq!(answer(&extended(0xC0), b"a"), 40);
    }
}

/// Frames that are not plain, each beside the nearest that is.
fn frames_not_plain(edition: u8) -> Vec<(Vec<u8>, Vec<u8>)> {
    let stored = |flags| frame(edition, b"PRIV", flags, b"\0\0\0\0");
    if edition == 3 {
        return vec![(stored(0x80), stored(0x10))];
    }
    let short = (head(edition, b"PRIV", 0, 1), head(edition, b"PRIV", 0, 0));
    [0x02, 0x03, 0x08, 0x09, 0x0A, 0x0B].into_iter().map(|flags| (stored(flags), stored(0xB1))).chain([short]).collect()
}

#[test]
fn compressed_unsynchronised_and_short_frames_are_not_plain_at_any_depth() {
    for edition in LATER {
        for (odd, plain) in frames_not_plain(edition) {
            let top = |frame: &[u8]| tag(edition, 0, &[&counted(edition, b"a", &[1]), frame].concat());
            met(40, &top(&odd), &top(&plain), 0);
            let inside = |frame: &[u8]| chapter(edition, frame);
            met(40, &top(&inside(&odd)), &top(&inside(&plain)), 0);
            met(40, &top(&inside(&inside(&odd))), &top(&inside(&inside(&plain))), 0);
            let contents = |run: &[u8]| frame(edition, b"CTOC", 0, &[b"\0\0\x01b\0", run].concat());
            met(40, &top(&contents(&odd)), &top(&contents(&plain)), 0);
        }
    }
}

#[test]
fn a_short_last_frame_in_each_edition() {
    for (edition, number) in [(2, 40), (3, 5), (4, 40)] {
        let last = |size| tag(edition, 0, &[counted(edition, b"a", &[1]), head(edition, b"UFID", 0, size)].concat());
        met(number, &last(1), &last(0), 0);
        // the popularimeter itself
        let mut cut = tag(edition, 0, &counted(edition, b"a", &[1, 2]));
        let place = if edition == 2 { 15 } else { 17 };
        cut[place] += 1;
        assert_eq!(answer(&cut, b"a"), number);
        cut[place] -= 1;
        assert_eq!(answer(&cut, b"a"), 0);
    }
}

#[test]
fn only_zeros_after_the_last_frame_are_plain() {
    for edition in EDITIONS {
        let with = |rest: &[u8]| tag(edition, 0, &[&counted(edition, b"a", &[1]), rest].concat());
        let most = if edition == 2 { 5 } else { 9 };
        for len in 0..30 {
            let zeros = vec![0; len];
            assert_eq!(answer(&with(&zeros), b"a"), 0, "{len} zeros in 2.{edition}");
            for at in 0..len {
                let mut rest = zeros.clone();
                rest[at] = b'A';
                // from a first byte that is not zero a frame is read where a header's bytes are left
                if at > 0 || len <= most {
                    met(40, &with(&rest), &with(&zeros), 0);
                }
            }
        }
    }
}

#[test]
fn what_is_left_over_in_a_run_is_plain() {
    for edition in LATER {
        for left in [&[0; 1][..], &[0; 9], &[0; 10], &[0; 25], b"A", b"AAAAAAAAA", b"\0AAAAAAAAAAAA"] {
            let inner = [&frame(edition, b"TIT2", 0, b"\0"), left].concat();
            let region = run([chapter(edition, &inner), counted(edition, b"a", &[1]), chapter(edition, left)]);
            assert_eq!(answer(&tag(edition, 0, &region), b"a"), 0, "{left:02X?}");
        }
    }
}

#[test]
fn a_data_length_is_plain_and_moves_the_counter_by_four_bytes() {
    let plain = tag(4, 0, &counted(4, b"a", &[0, 9]));
    let longer = tag(4, 0, &frame(4, b"POPM", 1, b"\x01\x02\x03\x04a\0\x07\0\x09"));
    for (tag, place) in [(plain, 23), (longer, 27)] {
        assert_eq!(tag[place..], [0, 9]);
        let (counter, bytes) = raised(&tag, b"a", 0x100).unwrap();
        assert_eq!((counter, &bytes[..place], &bytes[place..]), (0x109, &tag[..place], &[1, 9][..]));
    }
    // a size below four: no body, so that a field is missing
    assert_eq!(answer(&tag(4, 0, &[head(4, b"POPM", 1, 3), vec![0; 4]].concat()), b"a"), 11);
}

// ---- 41 to 44

#[test]
fn no_popularimeter_of_the_user_and_two() {
    for edition in EDITIONS {
        let of = |users: &[&[u8]]| {
            let frames: Vec<_> = users.iter().map(|user| counted(edition, user, &[1])).collect();
            tag(edition, 0, &frames.concat())
        };
        met(41, &of(&[]), &of(&[b"a"]), 0);
        met(41, &of(&[b"b", b"", b"A", b"aa"]), &of(&[b"b", b"", b"A", b"aa", b"a"]), 0);
        met(42, &of(&[b"a", b"a"]), &of(&[b"a", b"b"]), 0);
        met(42, &of(&[b"b", b"a", b"b", b"a", b"a"]), &of(&[b"b", b"a", b"b"]), 0);
        assert_eq!(answer(&of(&[b"b", b"a", b"b"]), b"b"), 42);
    }
}

#[test]
fn a_popularimeter_inside_a_chapter_is_not_found() {
    for edition in LATER {
        let (mine, inner) = (counted(edition, b"a", &[1]), chapter(edition, &counted(edition, b"a", &[1])));
        met(41, &tag(edition, 0, &inner), &tag(edition, 0, &mine), 0);
        let both = tag(edition, 0, &[&inner[..], &mine, &inner].concat());
        let (counter, bytes) = raised(&both, b"a", 4).unwrap();
        let place = 10 + inner.len() + mine.len() - 1;
        assert_eq!((counter, bytes[place], both[place]), (5, 5, 1));
        assert_eq!((&bytes[..place], &bytes[place + 1..]), (&both[..place], &both[place + 1..]));
    }
}

#[test]
fn another_kind_of_frame_is_not_found() {
    let body = b"a\0\x07\x01";
    for (edition, id) in [(2, b"POQ\0"), (2, b"UFI\0"), (3, b"PRIV"), (4, b"PCNT"), (4, b"POP\0"), (3, b"POPN")] {
        assert_eq!(answer(&tag(edition, 0, &frame(edition, id, 0, body)), b"a"), 41);
    }
}

#[test]
fn users_are_their_bytes() {
    let users: [&[u8]; 7] = [b"", b" ", b"room 7", b"caf\xE9", "café".as_bytes(), b"\xFF\xFE", &[0x80; 40]];
    for edition in EDITIONS {
        for user in users {
            let all = tag(edition, 0, &[counted(edition, user, &[0xF0]), vec![0; 3]].concat());
            assert_eq!(raised(&all, user, 15).map(|(counter, _)| counter), Ok(255));
            for other in users.into_iter().filter(|other| *other != user) {
                assert_eq!(answer(&all, other), 41);
            }
            // a user with a zero in it is in no tag, also where its bytes stand there
            assert_eq!(answer(&all, &[user, b"\0"].concat()), 41);
            assert_eq!(answer(&all, &[user, b"\0\x07"].concat()), 41);
        }
    }
}

#[test]
fn the_sum_fits_64_bits() {
    let most = u64::MAX.to_be_bytes();
    let longer = [&[0; 4][..], &most].concat();
    for counter in [&most[..], &longer] {
        assert_eq!(raised(&of_a(counter), b"a", 0), Ok((u64::MAX, of_a(counter))));
        for amount in [1, 2, u64::MAX] {
            assert_eq!(raised(&of_a(counter), b"a", amount), Err(43));
        }
    }
    let less = (u64::MAX - 1).to_be_bytes();
    assert_eq!(raised(&of_a(&less), b"a", 1), Ok((u64::MAX, of_a(&most))));
    assert_eq!(raised(&of_a(&less), b"a", 2), Err(43));
    assert_eq!(raised(&of_a(&[0; 8]), b"a", u64::MAX), Ok((u64::MAX, of_a(&most))));
}

#[test]
fn the_sum_fits_the_counter_bytes() {
    assert_eq!(raised(&of_a(&[255]), b"a", 1), Err(44));
    assert_eq!(raised(&of_a(&[254]), b"a", 1), Ok((255, of_a(&[255]))));
    assert_eq!(raised(&of_a(&[0, 255]), b"a", 1), Ok((256, of_a(&[1, 0]))));
    assert_eq!(raised(&of_a(&[255, 255]), b"a", 1), Err(44));
    for n in 1..8 {
        let (zeros, most) = (vec![0; n], vec![255; n]);
        let limit = 1_u64 << (8 * n);
        assert_eq!(raised(&of_a(&zeros), b"a", limit - 1), Ok((limit - 1, of_a(&most))));
        assert_eq!(raised(&of_a(&zeros), b"a", limit), Err(44));
        assert_eq!(raised(&of_a(&zeros), b"a", u64::MAX), Err(44));
        assert_eq!(raised(&of_a(&most), b"a", 0), Ok((limit - 1, of_a(&most))));
        assert_eq!(raised(&of_a(&most), b"a", 1), Err(44));
    }
}

#[test]
fn no_counter_bytes_hold_nothing_but_0() {
    for edition in EDITIONS {
        let none = tag(edition, 0, &counted(edition, b"a", &[]));
        assert_eq!(raised(&none, b"a", 0), Ok((0, none.clone())));
        assert_eq!(raised(&none, b"a", 1), Err(44));
        assert_eq!(raised(&none, b"a", u64::MAX), Err(44));
    }
}

#[test]
fn a_longer_counter_keeps_its_zeros_in_front() {
    let raised_to = |by, last: &[u8; 8]| {
        let (counter, bytes) = raised(&of_a(&LONG_COUNTER), b"a", by).unwrap();
        assert_eq!(counter, 65_280 + by);
        assert_eq!(bytes, of_a(&[&[0; 4], &last[..]].concat()));
    };
    raised_to(0, &[0, 0, 0, 0, 0, 0, 0xFF, 0]);
    raised_to(255, &[0, 0, 0, 0, 0, 0, 0xFF, 0xFF]);
    raised_to(256, &[0, 0, 0, 0, 0, 1, 0, 0]);
    raised_to(u64::MAX - 65_280, &[0xFF; 8]);
    assert_eq!(raised(&of_a(&LONG_COUNTER), b"a", u64::MAX - 65_279), Err(43));
}

// ---- the order of refusals

/// A frame whose id is no UTF-8, which is refused with 7.
fn bad(edition: u8) -> Vec<u8> {
    head(edition, b"\xFFAAA", 0, 0)
}

#[test]
fn what_reading_refuses_comes_first_unless_it_would_resynchronise() {
    let mine = |edition| counted(edition, b"a", &[1]);
    for edition in LATER {
        let compressed = frame(edition, b"PRIV", if edition == 3 { 0x80 } else { 0x08 }, &[0; 4]);
        assert_eq!(answer(&tag(edition, 0, &run([mine(edition), compressed.clone(), bad(edition)])), b"a"), 7);
        assert_eq!(answer(&tag(edition, 0, &run([chapter(edition, &compressed), bad(edition)])), b"a"), 7);
    }
    let flagged = |flags| frame(4, b"PRIV", flags, &[0; 4]);
    assert_eq!(answer(&tag(4, 0, &run([flagged(0x02), bad(4)])), b"a"), 40);
    assert_eq!(answer(&tag(4, 0, &run([flagged(0x03), bad(4)])), b"a"), 40);
    assert_eq!(answer(&tag(4, 0, &run([chapter(4, &flagged(0x02)), bad(4)])), b"a"), 40);
    // inside a chapter, before and after what is refused there
    assert_eq!(answer(&tag(4, 0, &chapter(4, &run([flagged(0x02), bad(4)]))), b"a"), 40);
    assert_eq!(answer(&tag(4, 0, &chapter(4, &run([bad(4), flagged(0x02)]))), b"a"), 7);
    // compressed as well it is not resynchronised
    assert_eq!(answer(&tag(4, 0, &run([flagged(0x0A), bad(4)])), b"a"), 7);
    assert_eq!(answer(&tag(4, 0, &run([bad(4), flagged(0x02)])), b"a"), 7);
    assert_eq!(answer(&tag(4, 0, &run([mine(4), flagged(0x02), bad(4)])), b"a"), 40);
}

#[test]
fn what_a_flagged_frame_is_refused_for_before_its_body() {
    let flagged = |id: &[u8], flags, body: &[u8]| tag(4, 0, &frame(4, id, flags, body));
    assert_eq!(answer(&flagged(b"\xFFAAA", 0x02, b""), b"a"), 7);
    assert_eq!(answer(&flagged(b"TIT2", 0x06, b""), b"a"), 8);
    assert_eq!(answer(&flagged(b"TIT2", 0x42, b""), b"a"), 9);
    assert_eq!(answer(&flagged(b"TIT2", 0x03, b""), b"a"), 5);
    // of its body nothing is judged
    assert_eq!(answer(&flagged(b"TIT2", 0x02, b"\x04"), b"a"), 40);
    assert_eq!(answer(&flagged(b"POPM", 0x02, b""), b"a"), 40);
}

#[test]
fn the_order_of_the_headers_checks() {
    for edition in [2, 3] {
        assert_eq!(answer(&tag(edition, 0x80, &bad(edition)), b"a"), 40);
        assert_eq!(answer(&tag(edition, 0x81, &bad(edition)), b"a"), 3);
    }
    assert_eq!(answer(&tag(2, 0xC0, &bad(2)), b"a"), 4);
    assert_eq!(answer(&tag(4, 0x80, &bad(4)), b"a"), 7);
    assert_eq!(answer(&tag(4, 0x81, &bad(4)), b"a"), 3);
    for edition in LATER {
        let extended = |flags, size, frames: &[u8]| tag(edition, flags, &[&[0, 0, 0, size, 0, 0], frames].concat());
        for flags in [0x40, 0xC0] {
            assert_eq!(answer(&tag(edition, flags, &[0; 5]), b"a"), 5);
            assert_eq!(answer(&extended(flags, 5, &bad(edition)), b"a"), 6);
        }
        // read on after the extended header, in 2.4 also with flag 80
        assert_eq!(answer(&extended(0x40, 6, &bad(edition)), b"a"), 7);
        assert_eq!(answer(&extended(0xC0, 6, &bad(edition)), b"a"), if edition == 3 { 40 } else { 7 });
        assert_eq!(answer(&extended(0x40, 6, b""), b"a"), 40);
    }
}

#[test]
fn what_is_not_plain_comes_before_the_user() {
    for edition in EDITIONS {
        let two = run([counted(edition, b"a", &[255]), counted(edition, b"a", &[255])]);
        let padded = [&two[..], b"\0A"].concat();
        for user in [b"a", b"b"] {
            assert_eq!(answer(&tag(edition, 0, &padded), user), 40);
        }
        // bytes that are missing come after what reading refuses
        let cut = [&tag(edition, 0, &[bad(edition), vec![0; 20]].concat())[..], b""].concat();
        assert_eq!(answer(&cut[..cut.len() - 1], b"a"), 7);
    }
}

#[test]
fn the_order_of_41_to_44() {
    let (full, large) = ([255], u64::MAX.to_be_bytes());
    // 42 before 43 and 44
    for counters in [[&full[..], &full], [&large, &large], [&full, &large]] {
        let two = tag(4, 0, &counters.map(|counter| counted(4, b"a", counter)).concat());
        assert_eq!(answer(&two, b"a"), 42);
        assert_eq!(answer(&two, b"b"), 41);
    }
    // 43 before 44
    assert_eq!(raised(&of_a(&[255]), b"a", u64::MAX), Err(43));
    assert_eq!(raised(&of_a(&[255]), b"a", u64::MAX - 255), Err(44));
    assert_eq!(raised(&of_a(&[0]), b"a", u64::MAX), Err(44));
}

// ---- the buffers lent

#[test]
fn bytes_after_the_tag_are_not_looked_at() {
    let more: [&[u8]; 4] =
        [b"\xFF\xFB\x90\x64 sound", b"ID3\x04\0\0\0\0\0\0", b"POPM\0\0\0\x04\0\0a\0\x07\x01", b"\xFF"];
    for edition in EDITIONS {
        for padding in [0, 1, 20] {
            let alone = tag(edition, 0, &[counted(edition, b"a", &[7, 255]), vec![0; padding]].concat());
            let (counter, bytes) = raised(&alone, b"a", 1).unwrap();
            assert_eq!(counter, 0x800);
            for behind in more {
                let file = [&alone, behind].concat();
                assert_eq!(raised(&file, b"a", 1), Ok((0x800, [&bytes, behind].concat())));
                assert_eq!(raised(&file, b"b", 1), Err(41));
            }
        }
    }
}

#[test]
fn too_few_words_are_refused_before_all_else() {
    let mut bytes = of_a(&[1]);
    let before = bytes.clone();
    assert_eq!(calls::raise(&mut bytes, b"a", 1, &mut []), 20);
    assert_eq!(calls::raise(&mut [], b"", 1, &mut []), 20);
    assert_eq!(bytes, before);
    assert_eq!(calls::raise(&mut bytes, b"a", 1, &mut [0]), 0);
    assert_eq!(bytes, of_a(&[2]));
}

// ---- tags that were written

/// A tag with a title, the popularimeter of the user `a`, and padding.
fn written(version: Version, mode: Mode, counter: u64) -> Vec<u8> {
    let ids: [Id; 2] = match version {
        Version::Id3v22 => [b"TT2".into(), b"POP".into()],
        Version::Id3v23 | Version::Id3v24 => [b"TIT2".into(), b"POPM".into()],
    };
    let mut writer = Writer::new(version).mode(mode);
    writer.add(ids[0], &Content::Text { encoding: Encoding::Latin1, text: "A song" }).unwrap();
    writer.add(ids[1], &Content::Popularimeter { user: "a", rating: 3, counter }).unwrap();
    writer.finish(11).unwrap()
}

#[test]
fn a_tag_written_in_mode_off_is_raised_wherever_the_sum_fits() {
    for version in VERSIONS {
        for counter in [0, 1, 255, 256, 0xFF00, u64::MAX >> 1, u64::MAX - 1] {
            let tag = written(version, Mode::Off, counter);
            // what as many bytes hold as the writer takes, none for 0
            let most = u64::MAX.checked_shr(counter.leading_zeros() / 8 * 8).unwrap_or(0);
            for amount in [0, 1, most - counter] {
                let want = if counter + amount <= most { Ok(counter + amount) } else { Err(44) };
                assert_eq!(raised(&tag, b"a", amount).map(|(sum, _)| sum), want, "{counter} and {amount} in {version}");
            }
        }
    }
}

#[test]
fn a_tag_written_in_another_mode_is_not_plain() {
    for version in VERSIONS {
        for mode in [Mode::Crate, Mode::Standard] {
            assert_eq!(raise(&mut written(version, mode, 7), b"a", 1), Err(Refusal::NOT_PLAIN));
        }
    }
}
