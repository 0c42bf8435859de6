//! Texts in the four encodings.
use crate::rng::Rng;

// characters of one to four bytes of UTF-8, and of one and two units of UTF-16
const CHARACTERS: [char; 12] =
    ['A', 'z', '/', ' ', '\u{7F}', '\u{E9}', '\u{FF}', '\u{100}', '\u{20AC}', '\u{FEFF}', '\u{FF00}', '\u{1F3B5}'];

/// A text of an encoding, mostly one that can be decoded, without a closing zero.
pub fn text(rng: &mut Rng, encoding: u8) -> Vec<u8> {
    if rng.one_in(14) {
        return rng.bytes(10);
    }
    match encoding {
        1 => {
            let big = rng.one_in(3);
            let mut out = if big { vec![0xFE, 0xFF] } else { vec![0xFF, 0xFE] };
            out.extend(units(rng, big));
            out
        }
        2 => units(rng, true),
        3 => characters(rng, 12).into_iter().collect::<String>().into_bytes(),
        _ => rng.name(10),
    }
}

/// Some characters, the first so many of those that are made.
pub fn characters(rng: &mut Rng, among: usize) -> Vec<char> {
    let n = rng.below(7);
    let mut out: Vec<char> = (0..n).map(|_| CHARACTERS[rng.below(among)]).collect();
    if rng.one_in(12) && n > 0 {
        let i = rng.below(n);
        out[i] = '\0';
    }
    out
}

fn units(rng: &mut Rng, big: bool) -> Vec<u8> {
    let text: String = characters(rng, 12).into_iter().collect();
    text.encode_utf16().flat_map(|unit| if big { unit.to_be_bytes() } else { unit.to_le_bytes() }).collect()
}
