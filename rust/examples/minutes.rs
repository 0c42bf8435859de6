//! Prints the user and the counter of each popularimeter in a tag, from a file or from standard input, and why counters may
//! be missing. Then writes a small tag, and reads it back in the same way. `examples/minutes.c` is the same in C.
//!
//!     cargo run --example minutes -- FILE
//!
//! Exit status: 0 every popularimeter of both tags was shown, 1 one may be missing.

use std::io::{self, Read, Write};
use std::process::ExitCode;
use streamvault::{Content, Meter, Mode, Refusal, Version, Writer};

fn main() -> io::Result<ExitCode> {
    let mut bytes = Vec::new();
    match std::env::args_os().nth(1) {
        Some(path) => bytes = std::fs::read(path)?,
        None => {
            io::stdin().read_to_end(&mut bytes)?;
        }
    }
    let whole = minutes(&bytes, &mut io::stdout())?;
    Ok(ExitCode::from(u8::from(!whole)))
}

/// Prints the given tag and a written one; whether nothing is missing.
pub fn minutes(given: &[u8], out: &mut dyn Write) -> io::Result<bool> {
    writeln!(out, "given:")?;
    let given = print_tag(given, out)?;
    writeln!(out, "written:")?;
    let tag = write_tag().map_err(io::Error::other)?;
    Ok(print_tag(&tag, out)? && given)
}

/// Prints the popularimeters of a tag; whether none is missing.
fn print_tag(tag: &[u8], out: &mut dyn Write) -> io::Result<bool> {
    let mut meter = match Meter::open(tag, Vec::new()) {
        Ok(meter) => meter,
        Err(refusal) => return print_refusal(refusal, out).map(|()| false),
    };
    while let Some(Ok(popularimeter)) = meter.next_popularimeter() {
        out.write_all(popularimeter.user)?;
        writeln!(out, " {}", popularimeter.counter)?;
    }
    let ending = meter.ending();
    if let Some(refusal) = ending.refusal {
        print_refusal(refusal, out)?;
    }
    if ending.short || ending.missing {
        writeln!(out, "cut")?;
    }
    if ending.compressed {
        writeln!(out, "compressed")?;
    }
    Ok(ending.is_whole())
}

fn print_refusal(refusal: Refusal, out: &mut dyn Write) -> io::Result<()> {
    writeln!(out, "refused {}", refusal.number())
}

/// A tag with one popularimeter.
fn write_tag() -> Result<Vec<u8>, Refusal> {
    let mut writer = Writer::new(Version::Id3v24).mode(Mode::Standard);
    writer.add(b"POPM", &Content::Popularimeter { user: b"room 7", rating: 0, counter: 65_280 })?;
    writer.finish(1)
}
