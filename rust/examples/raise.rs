//! Raises the counter of a user in the tag at the front of a file, in place. `examples/raise.c` is the same in C; the program
//! `streamvault` does it with more care for files that change meanwhile.
//!
//!     cargo run --example raise -- USER AMOUNT FILE
//!
//! Exit status: 0 the counter was raised, 1 it was not, and why is said.

use std::error::Error;
use std::fs::File;
use std::io::{Read, Seek, SeekFrom, Write};
use std::path::Path;
use streamvault::{header, raise, Header};

fn main() -> Result<(), Box<dyn Error>> {
    let words: Vec<String> = std::env::args().skip(1).collect();
    let [user, amount, file] = &words[..] else {
        return Err("name the user, the amount and the file".into());
    };
    println!("{}", raise_in(Path::new(file), user.as_bytes(), amount.parse()?)?);
    Ok(())
}

/// Raises the counter in a file, and gives the new one. Nothing of the sound is read, and only counter bytes are written.
pub fn raise_in(path: &Path, user: &[u8], amount: u64) -> Result<u64, Box<dyn Error>> {
    let mut file = File::options().read(true).write(true).open(path)?;
    let before = read_tag(&mut file)?;
    let mut after = before.clone();
    let counter = raise(&mut after, user, amount)?;
    let differs = |at: &usize| before[*at] != after[*at];
    if let Some(first) = (0..before.len()).find(differs) {
        let last = (first..before.len()).rfind(differs).unwrap_or(first);
        file.seek(SeekFrom::Start(first as u64))?;
        file.write_all(&after[first..=last])?;
    }
    Ok(counter)
}

/// The tag at the front of a file, as far as it is there.
fn read_tag(file: &mut File) -> Result<Vec<u8>, Box<dyn Error>> {
    let mut tag = Vec::new();
    file.take(Header::PEEK as u64).read_to_end(&mut tag)?;
    let wanted = header(&tag)?.tag_len();
    tag.truncate(wanted);
    file.take((wanted - tag.len()) as u64).read_to_end(&mut tag)?;
    Ok(tag)
}
