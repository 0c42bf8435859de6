//! How fast the new library, the crate and other libraries read the counters of small tags, in one run over the same bytes: the library by its meter and by
//! a reader's steps, the others by going through the frames.
//!
//!     speed TAGS [PEER...]     TAGS of each kind are read; PEER is a shared library with the function `peer_read` (peers/)
//!
//! Each is first asked for the number of frames and the sum of all counters, which must be the same. The times are the best of several rounds; in
//! each round every reader has its turn.
use compare::songs::{box_tag, sold_tag};
use std::ffi::{c_char, c_int, c_void, CString};
use std::hint::black_box;
use std::io::Cursor;
use std::time::Instant;
use streamvault::{calls, sys, Mode, Version};

const ROUNDS: usize = 9;

/// Frames, and the sum of the counters.
type Found = (u64, u64);
type Peer = unsafe extern "C" fn(*const u8, usize, *mut u64, *mut u64) -> c_int;

struct Reader {
    name: String,
    read: Box<dyn Fn(&[Vec<u8>]) -> Found>,
    best: f64,
}

fn main() {
    let mut words = std::env::args().skip(1);
    let count: usize = words.next().and_then(|word| word.parse().ok()).expect("the number of tags comes first");
    let mut readers = vec![reader("meter", by_meter), reader("steps", by_steps), reader("id3 1.17.2", by_crate)];
    for path in words {
        let peer = loaded(&path);
        let name = path.rsplit('/').next().unwrap_or(&path).trim_end_matches(".so").to_string();
        readers.push(Reader { name, read: Box::new(move |tags| by_peer(peer, tags)), best: f64::INFINITY });
    }
    for version in [Version::Id3v22, Version::Id3v23, Version::Id3v24] {
        for (what, make) in KINDS {
            let tags: Vec<_> = (0..count).map(|i| make(version, i as u64 * 977)).collect();
            measure(&mut readers, &tags);
            println!("{count} tags, {version}, {what}, {} bytes each:", tags[0].len());
            show(&readers);
        }
    }
}

fn reader(name: &str, read: fn(&[Vec<u8>]) -> Found) -> Reader {
    Reader { name: name.to_string(), read: Box::new(read), best: f64::INFINITY }
}

/// The best time of each, in nanoseconds for one tag.
fn measure(readers: &mut [Reader], tags: &[Vec<u8>]) {
    let expected = (readers[0].read)(tags);
    for reader in readers.iter_mut() {
        assert_eq!(expected, (reader.read)(tags), "{} reads otherwise", reader.name);
        reader.best = f64::INFINITY;
    }
    for _ in 0..ROUNDS {
        for reader in readers.iter_mut() {
            let start = Instant::now();
            black_box((reader.read)(black_box(tags)));
            let time = start.elapsed().as_secs_f64() * 1e9 / tags.len() as f64;
            reader.best = reader.best.min(time);
        }
    }
}

fn show(readers: &[Reader]) {
    for reader in readers {
        let times = reader.best / readers[0].best;
        println!("  {:<12} {:>9.1} ns for a tag {:>12.0} tags in a second {:>8.2} times as long", reader.name, reader.best, 1e9 / reader.best, times);
    }
}

// ---- the tags

type Make = fn(Version, u64) -> Vec<u8>;

const USER: &[u8] = b"room 7";

const KINDS: [(&str, Make); 3] = [
    ("as a box leaves it, four frames", |version, counter| box_tag(version, Mode::Off, USER, counter)),
    ("the same, unsynchronised", |version, counter| box_tag(version, Mode::Standard, USER, counter)),
    ("as a shop sells it, thirteen frames with a picture", |version, counter| sold_tag(version, USER, counter)),
];

// ---- the readers

/// Opened, every popularimeter, the end.
fn by_meter(tags: &[Vec<u8>]) -> Found {
    let (mut meter, mut metered) = ([0; sys::SV_METER_WORDS], [0; sys::SV_METERED_WORDS]);
    let mut work = [0; 4096];
    let mut found = (0, 0);
    for tag in tags {
        let mut answer = calls::meter_open(tag, &mut work, &mut meter);
        while answer == 0 {
            answer = calls::meter_next(tag, &mut work, &mut meter, &mut metered);
            if answer == 0 {
                found.1 += metered[sys::SV_METERED_COUNTER];
            }
        }
        assert_eq!(answer, sys::SV_END);
        found.0 += meter[sys::SV_METER_FRAMES];
    }
    found
}

/// Opened, every frame, the end.
fn by_steps(tags: &[Vec<u8>]) -> Found {
    let (mut reader, mut record) = ([0; sys::SV_READER_WORDS], [0; sys::SV_RECORD_WORDS]);
    let mut work = [0; 4096];
    let mut found = (0, 0);
    for tag in tags {
        let mut answer = calls::open(tag, &mut work, &mut reader);
        while answer == 0 {
            answer = calls::step(tag, &mut work, &mut reader, &mut record);
            if answer == 0 {
                found.0 += 1;
                if record[sys::SV_RECORD_KIND] == sys::SV_KIND_POPULARIMETER {
                    found.1 += record[sys::SV_POPULARIMETER_COUNTER];
                }
            }
        }
        assert_eq!(answer, sys::SV_END);
    }
    found
}

fn by_crate(tags: &[Vec<u8>]) -> Found {
    let mut found = (0, 0);
    for bytes in tags {
        let tag = id3::Tag::read_from2(Cursor::new(bytes)).expect("the crate reads it");
        for frame in tag.frames() {
            found.0 += 1;
            if let Some(popularimeter) = frame.content().popularimeter() {
                found.1 += popularimeter.counter;
            }
        }
    }
    found
}

fn by_peer(peer: Peer, tags: &[Vec<u8>]) -> Found {
    let mut found = (0, 0);
    for tag in tags {
        // SAFETY: the bytes of a slice, and two numbers.
        let read = unsafe { peer(tag.as_ptr(), tag.len(), &mut found.0, &mut found.1) };
        assert_eq!(read, 1, "it reads no tag");
    }
    found
}

extern "C" {
    fn dlopen(path: *const c_char, flags: c_int) -> *mut c_void;
    fn dlsym(library: *mut c_void, name: *const c_char) -> *mut c_void;
}

/// The function `peer_read` of a shared library.
fn loaded(path: &str) -> Peer {
    const NOW: c_int = 2;
    let path_bytes = CString::new(path).expect("a path without a zero");
    // SAFETY: both names end in a zero. peers/ declares the function as `Peer` says.
    unsafe {
        let library = dlopen(path_bytes.as_ptr(), NOW);
        assert!(!library.is_null(), "{path} cannot be loaded");
        let function = dlsym(library, c"peer_read".as_ptr());
        assert!(!function.is_null(), "{path} has no function peer_read");
        std::mem::transmute::<*mut c_void, Peer>(function)
    }
}
