//! A folder of small files, and its sum by the crate, as somebody would write it who has the crate: to be timed beside `streamvault sum`.
//!
//!     folder make FOLDER FILES     makes so many files, each with a tag as a box leaves it and a little sound
//!     folder sum FOLDER            prints what `streamvault sum --csv` prints
use compare::songs::box_tag;
use std::collections::BTreeMap;
use std::error::Error;
use std::fs::{self, File};
use std::path::Path;
use streamvault::{Mode, Version};

const IN_A_FOLDER: u64 = 1000;
const VERSIONS: [Version; 3] = [Version::Id3v22, Version::Id3v23, Version::Id3v24];
const MODES: [Mode; 2] = [Mode::Off, Mode::Standard];
const SOUND: [u8; 1024] = [0x55; 1024];

/// Popularimeters and the sum of their counters, by user.
type Totals = BTreeMap<String, (u64, u128)>;

fn main() -> Result<(), Box<dyn Error>> {
    let words: Vec<_> = std::env::args().skip(1).collect();
    match words.iter().map(String::as_str).collect::<Vec<_>>()[..] {
        ["make", folder, files] => make(Path::new(folder), files.parse()?),
        ["sum", folder] => {
            let mut totals = Totals::new();
            sum(Path::new(folder), &mut totals)?;
            show(&totals);
            Ok(())
        }
        _ => Err("make FOLDER FILES, or sum FOLDER".into()),
    }
}

fn make(folder: &Path, files: u64) -> Result<(), Box<dyn Error>> {
    for i in 0..files {
        let inner = folder.join(format!("{:03}", i / IN_A_FOLDER));
        fs::create_dir_all(&inner)?;
        let (version, mode) = (VERSIONS[i as usize % 3], MODES[i as usize / 3 % 2]);
        let tag = box_tag(version, mode, format!("room {}", i % 100).as_bytes(), i * 977);
        fs::write(inner.join(format!("{i:06}.mp3")), [&tag[..], &SOUND].concat())?;
    }
    Ok(())
}

fn sum(path: &Path, totals: &mut Totals) -> Result<(), Box<dyn Error>> {
    if path.is_dir() {
        for entry in fs::read_dir(path)? {
            sum(&entry?.path(), totals)?;
        }
        return Ok(());
    }
    for frame in id3::Tag::read_from2(File::open(path)?)?.frames() {
        if let Some(found) = frame.content().popularimeter() {
            let total = totals.entry(found.user.clone()).or_default();
            *total = (total.0 + 1, total.1 + u128::from(found.counter));
        }
    }
    Ok(())
}

fn show(totals: &Totals) {
    println!("user,popularimeters,counter");
    for (user, (popularimeters, counter)) in totals {
        println!("{user},{popularimeters},{counter}");
    }
}
