//! How users, paths, ids and bytes are printed.

use std::fmt::Write;
use std::os::unix::ffi::OsStrExt;
use std::path::Path;

/// What stands before a user or a path that is printed in hexadecimal.
const HEX: &str = "hex:";

/// Bytes in upper-case hexadecimal.
pub fn hex(bytes: &[u8]) -> String {
    bytes.iter().fold(String::with_capacity(bytes.len() * 2), |mut out, byte| {
        let _ = write!(out, "{byte:02X}");
        out
    })
}

/// The bytes that pairs of hexadecimal digits say, also after `hex:`; nothing where they are no such pairs.
pub fn unhex(text: &str) -> Option<Vec<u8>> {
    let digits = text.strip_prefix(HEX).unwrap_or(text).as_bytes();
    let digit = |byte: u8| char::from(byte).to_digit(16);
    let pairs = digits.chunks(2).map(|pair| match *pair {
        [high, low] => Some((digit(high)? << 4 | digit(low)?) as u8),
        _ => None,
    });
    pairs.collect()
}

/// The same after `hex:`.
fn marked_hex(bytes: &[u8]) -> String {
    format!("{HEX}{}", hex(bytes))
}

/// A user as it is where its bytes are printable ASCII; else `hex:` and the bytes. No two users are printed alike.
pub fn user(bytes: &[u8]) -> String {
    let printable = bytes.iter().all(|byte| (b' '..=b'~').contains(byte));
    if !printable || bytes.is_empty() || bytes.starts_with(HEX.as_bytes()) {
        return marked_hex(bytes);
    }
    bytes.iter().copied().map(char::from).collect()
}

/// A user as a field of comma-separated values. One that a spreadsheet would take for a formula is printed as `hex:` and
/// its bytes too: quotes do not stop that.
pub fn csv_user(bytes: &[u8]) -> String {
    let shown = user(bytes);
    if shown.trim_start().starts_with(['=', '+', '-', '@']) {
        return marked_hex(bytes);
    }
    csv(&shown)
}

/// A path for people: see [`escaped`].
pub fn path(path: &Path) -> String {
    escaped(path.as_os_str().as_bytes())
}

/// A path for programs: as it is where it is UTF-8; else, and where it begins with `hex:`, that and its bytes.
pub fn exact_path(path: &Path) -> String {
    match path.to_str() {
        Some(text) if !text.starts_with(HEX) => text.to_string(),
        _ => marked_hex(path.as_os_str().as_bytes()),
    }
}

/// Bytes as text for people. Characters that do not show, or that a terminal obeys, are escaped, and so are backslashes
/// and bytes that are not UTF-8. No two sequences of bytes are printed alike.
pub fn escaped(bytes: &[u8]) -> String {
    let mut out = String::new();
    for part in bytes.utf8_chunks() {
        for c in part.valid().chars() {
            if c == '\\' || unseen(c) {
                out.extend(c.escape_default());
            } else {
                out.push(c);
            }
        }
        for byte in part.invalid() {
            let _ = write!(out, "\\x{byte:02X}");
        }
    }
    out
}

/// Whether a character does not show, or changes how others do: control characters, separators of lines, those that set
/// the direction of text, and all others that Unicode lets a program ignore.
fn unseen(c: char) -> bool {
    c.is_control()
        || matches!(c,
            '\u{AD}' | '\u{34F}' | '\u{61C}' | '\u{115F}'..='\u{1160}' | '\u{17B4}'..='\u{17B5}'
            | '\u{180B}'..='\u{180F}' | '\u{200B}'..='\u{200F}' | '\u{2028}'..='\u{202E}'
            | '\u{2060}'..='\u{206F}' | '\u{3164}' | '\u{FE00}'..='\u{FE0F}' | '\u{FEFF}' | '\u{FFA0}'
            | '\u{FFF0}'..='\u{FFFB}' | '\u{1BCA0}'..='\u{1BCA3}' | '\u{1D173}'..='\u{1D17A}'
            | '\u{E0000}'..='\u{E0FFF}')
}

/// A field of comma-separated values, quoted where it has to be. A semicolon is quoted too: some spreadsheets begin a new
/// cell there.
fn csv(field: &str) -> String {
    if field.contains([',', ';', '"', '\n', '\r']) {
        return format!("\"{}\"", field.replace('"', "\"\""));
    }
    field.to_string()
}

/// A JSON string. What does not show is escaped.
pub fn json(text: &str) -> String {
    let mut out = String::from("\"");
    for c in text.chars() {
        match c {
            '"' => out.push_str("\\\""),
            '\\' => out.push_str("\\\\"),
            c if unseen(c) => {
                for unit in c.encode_utf16(&mut [0; 2]) {
                    let _ = write!(out, "\\u{unit:04x}");
                }
            }
            c => out.push(c),
        }
    }
    out.push('"');
    out
}

#[cfg(test)]
mod tests {
    use super::*;
    use std::ffi::OsStr;

    #[test]
    fn users_are_shown_as_they_are_or_in_hexadecimal() {
        assert_eq!(user(b"a@b.example"), "a@b.example");
        assert_eq!(user(b"room 7~"), "room 7~");
        assert_eq!(user(b""), "hex:");
        assert_eq!(user(b"\xFFa\n"), "hex:FF610A");
        assert_eq!(user(b"hex:00"), "hex:6865783A3030");
    }

    #[test]
    fn hexadecimal_goes_there_and_back() {
        let all: Vec<u8> = (0..=255).collect();
        assert_eq!(unhex(&hex(&all)), Some(all));
        for (text, want) in [("", Some(&b""[..])), ("hex:", Some(b"")), ("hex:6a6B", Some(b"jk")), ("6A6", None)] {
            assert_eq!(unhex(text).as_deref(), want, "{text}");
        }
        for none in ["6", "6G", "+6", "hex:hex:", "6A ", "\u{e9}"] {
            assert_eq!(unhex(none), None, "{none}");
        }
    }

    #[test]
    fn no_user_is_a_formula_to_a_spreadsheet() {
        for (formula, want) in [
            (&b"=1+1"[..], "hex:3D312B31"),
            (b"+49 30", "hex:2B3439203330"),
            (b"-1", "hex:2D31"),
            (b"@SUM(A1)", "hex:4053554D28413129"),
            (b"\t=1", "hex:093D31"),
            (b"\r=1", "hex:0D3D31"),
            (b"  =1", "hex:20203D31"),
            (b"=\",\"", "hex:3D222C22"),
        ] {
            assert_eq!(csv_user(formula), want);
        }
        for plain in ["a@b.example", "room-1", "1=1", "'=1", " a"] {
            assert_eq!(csv_user(plain.as_bytes()), plain);
        }
        // it stays one cell, so that no other begins with the sign
        assert_eq!(csv_user(b"a;=1"), "\"a;=1\"");
        assert_eq!(csv_user(b"a,=1"), "\"a,=1\"");
    }

    #[test]
    fn what_does_not_show_is_escaped() {
        assert_eq!(path(Path::new("a\x1b[2Jb\n")), "a\\u{1b}[2Jb\\n");
        assert_eq!(escaped("\u{7f}\u{9b}31m".as_bytes()), "\\u{7f}\\u{9b}31m");
        assert_eq!(escaped("a\u{202e}3pm.\u{200b}\u{feff}".as_bytes()), "a\\u{202e}3pm.\\u{200b}\\u{feff}");
        assert_eq!(escaped("é ü 歌 ☃".as_bytes()), "é ü 歌 ☃");
    }

    #[test]
    fn no_two_paths_are_shown_alike() {
        assert_eq!(escaped(b"caf\xE9"), "caf\\xE9");
        assert_eq!(escaped(b"caf\\xE9"), "caf\\\\xE9");
        assert_eq!(escaped("caf\u{fffd}".as_bytes()), "caf\u{fffd}");
        assert_eq!(escaped(b"a\\n"), "a\\\\n");
        assert_eq!(escaped(b"\xF0\x9F\x1b"), "\\xF0\\x9F\\u{1b}");
    }

    #[test]
    fn paths_for_programs_keep_every_byte() {
        let exact = |bytes: &[u8]| exact_path(Path::new(OsStr::from_bytes(bytes)));
        assert_eq!(exact("a/é\n".as_bytes()), "a/é\n");
        assert_eq!(exact(b"a/\xE9"), "hex:612FE9");
        assert_eq!(exact(b"hex:612FE9"), "hex:6865783A363132464539");
        assert_eq!(exact(b"./hex:"), "./hex:");
    }

    #[test]
    fn fields_are_quoted_where_they_have_to_be() {
        assert_eq!(csv("plain"), "plain");
        assert_eq!(csv("a,b"), "\"a,b\"");
        assert_eq!(csv("say \"a\""), "\"say \"\"a\"\"\"");
    }

    #[test]
    fn strings_are_escaped() {
        assert_eq!(json("a\"b\\c\n\u{85}"), "\"a\\\"b\\\\c\\u000a\\u0085\"");
        assert_eq!(json("\u{7f}\u{202e}\u{e0041}é"), "\"\\u007f\\u202e\\udb40\\udc41é\"");
    }
}
