//! The listing of one tag, line by line as document 01 has it.

use crate::show;
use std::io::{self, Write};
use streamvault::{header, Content, Frame, Reader, Refusal};

/// Prints the header and the frames of the top level; false where it ends with a refusal. For a terminal ids are escaped.
pub fn list(tag: &[u8], terminal: bool, out: &mut dyn Write) -> io::Result<bool> {
    let found = match header(tag) {
        Ok(found) => found,
        Err(refusal) => return refused(refusal, out),
    };
    writeln!(out, "tag {} size {} flags {} ext {}", found.version, found.size, found.flags, found.ext)?;
    match Reader::open(tag, Vec::new()) {
        Ok(reader) => frames(reader, terminal, out),
        Err(refusal) => refused(refusal, out),
    }
}

fn frames(mut reader: Reader<'_, Vec<u8>>, terminal: bool, out: &mut dyn Write) -> io::Result<bool> {
    let mut number = 0;
    while let Some(next) = reader.next_frame() {
        match next {
            Ok(found) => frame(number, &found, terminal, out)?,
            Err(refusal) => return refused(refusal, out),
        }
        number += 1;
    }
    writeln!(out, "end {number}")?;
    Ok(true)
}

/// The line of a frame. Its id is printed as its bytes, which a terminal might obey: there they are escaped.
fn frame(number: u64, frame: &Frame<'_>, terminal: bool, out: &mut dyn Write) -> io::Result<()> {
    write!(out, "frame {number} ")?;
    if terminal {
        write!(out, "{}", show::escaped(frame.id.as_bytes()))?;
    } else {
        out.write_all(frame.id.as_bytes())?;
    }
    let whole = if frame.short { "short" } else { "whole" };
    write!(out, " at {} body {} {} {whole}", frame.at, frame.body.len(), frame.kind())?;
    if let Content::Popularimeter { user, rating, counter } = frame.content {
        let user = if user.is_empty() { "-".to_string() } else { show::hex(user) };
        write!(out, " user {user} rating {rating} counter {counter}")?;
    }
    writeln!(out)
}

fn refused(refusal: Refusal, out: &mut dyn Write) -> io::Result<bool> {
    writeln!(out, "refused {}", refusal.number())?;
    Ok(false)
}

#[cfg(test)]
mod tests {
    use super::*;

    fn listed(tag: &[u8]) -> (bool, String) {
        let [(ended, text), for_a_terminal] = [false, true].map(|terminal| listed_for(terminal, tag));
        assert_eq!((ended, &text), (for_a_terminal.0, &for_a_terminal.1));
        (ended, text)
    }

    fn listed_for(terminal: bool, tag: &[u8]) -> (bool, String) {
        let mut out = Vec::new();
        let ended = list(tag, terminal, &mut out).unwrap();
        (ended, String::from_utf8(out).unwrap())
    }

    #[test]
    fn the_case_of_document_01() {
        let tag = b"ID3\x04\0\0\0\0\0\x12POPM\0\0\0\x08\0\0a\0\x05\x01\0\0\0\0";
        let want = "\
tag 2.4 size 18 flags 0 ext 0
frame 0 POPM at 0 body 8 popularimeter whole user 61 rating 5 counter 4294967296
end 1
";
        assert_eq!(listed(tag), (true, want.to_string()));
    }

    #[test]
    fn an_empty_user_is_a_dash_and_a_cut_frame_short() {
        let tag = b"ID3\x02\0\0\0\0\0\x11POP\0\0\x02\0\x07TT2\0\0\x09\0AB";
        let want = "\
tag 2.2 size 17 flags 0 ext 0
frame 0 POP at 0 body 2 popularimeter whole user - rating 7 counter 0
frame 1 TT2 at 8 body 3 text short
end 2
";
        assert_eq!(listed(tag), (true, want.to_string()));
    }

    #[test]
    fn only_a_terminal_gets_ids_escaped() {
        for (id, want) in [(&b"\x1b[2J"[..], "\\u{1b}[2J"), (b"A\r\nB", "A\\r\\nB"), (b"\xC2\x9B1m", "\\u{9b}1m")] {
            let tag = [b"ID3\x04\0\0\0\0\0\x0A", id, b"\0\0\0\0\0\0"].concat();
            let line = |id: &str| format!("tag 2.4 size 10 flags 0 ext 0\nframe 0 {id} at 0 body 0 raw whole\nend 1\n");
            assert_eq!(listed_for(false, &tag), (true, line(std::str::from_utf8(id).unwrap())));
            assert_eq!(listed_for(true, &tag), (true, line(want)));
        }
    }

    #[test]
    fn a_refusal_takes_the_place_of_the_end() {
        assert_eq!(listed(b"ID3\x04\0\x01\0\0\0\0"), (false, "refused 3\n".to_string()));
        let tag = b"ID3\x03\0\0\0\0\0\x1APRIV\0\0\0\0\0\0TIT2\0\0\0\x02\0\0\x04A\0\0\0\0";
        let want = "\
tag 2.3 size 26 flags 0 ext 0
frame 0 PRIV at 0 body 0 raw whole
refused 12
";
        assert_eq!(listed(tag), (false, want.to_string()));
    }

    #[test]
    fn a_counter_of_twelve_bytes_and_one_that_is_too_large() {
        let tag =
            b"ID3\x02\0\0\0\0\0\x25POP\0\0\x0E\0\x07\0\0\0\0\0\0\0\0\0\0\xFF\0POP\0\0\x0B\0\x07\x01\0\0\0\0\0\0\0\0";
        let want = "\
tag 2.2 size 37 flags 0 ext 0
frame 0 POP at 0 body 14 popularimeter whole user - rating 7 counter 65280
refused 35
";
        assert_eq!(listed(tag), (false, want.to_string()));
    }
}
