//! What several tests use: running and compiling programs, a folder of one's own, tags, records, long counters, settings,
//! and a generator of numbers.
#![allow(dead_code)]

pub mod layout;
pub mod plain;
pub mod records;

use std::fs;
use std::path::{Path, PathBuf};
use std::process::{Command, Output};
use streamvault::{Id, Mode, Version};

pub const VERSIONS: [Version; 3] = [Version::Id3v22, Version::Id3v23, Version::Id3v24];
pub const MODES: [Mode; 3] = [Mode::Off, Mode::Crate, Mode::Standard];

/// The id that an edition has for a frame.
pub fn id(version: Version, three: &[u8; 3], four: &[u8; 4]) -> Id {
    if version == Version::Id3v22 {
        three.into()
    } else {
        four.into()
    }
}

/// A command that runs an x86-64 program. `STREAMVAULT_RUNNER` names an emulator with its words, where one is needed.
pub fn command(program: impl AsRef<Path>) -> Command {
    let runner = std::env::var("STREAMVAULT_RUNNER").unwrap_or_default();
    let mut words = runner.split_whitespace();
    let Some(first) = words.next() else {
        return Command::new(program.as_ref());
    };
    let mut command = Command::new(first);
    command.args(words).arg(program.as_ref());
    command
}

/// Standard output and the exit status of a command that printed text.
pub fn said(output: &Output) -> (String, i32) {
    let text = String::from_utf8(output.stdout.clone()).expect("text");
    (text, output.status.code().expect("an exit status"))
}

/// The top of the repository.
pub fn root() -> PathBuf {
    Path::new(env!("CARGO_MANIFEST_DIR")).join("..")
}

/// An empty folder of this name below cargo's own for tests.
pub fn folder(name: &str) -> PathBuf {
    let folder = Path::new(env!("CARGO_TARGET_TMPDIR")).join(name);
    if folder.exists() {
        fs::remove_dir_all(&folder).unwrap();
    }
    fs::create_dir_all(&folder).unwrap();
    folder
}

/// The languages that the C header is for.
#[derive(Clone, Copy, Debug)]
pub enum Language {
    C99,
    Cplusplus11,
}

impl Language {
    pub const ALL: [Language; 2] = [Language::C99, Language::Cplusplus11];

    /// The compiler for x86-64: what `CC` or `CXX` names, else the usual one.
    fn compiler(self) -> String {
        let (variable, usual) = match self {
            Language::C99 => ("CC", "cc"),
            Language::Cplusplus11 => ("CXX", "c++"),
        };
        std::env::var(variable).unwrap_or_else(|_| usual.to_string())
    }

    fn words(self) -> [&'static str; 3] {
        match self {
            Language::C99 => ["-std=c99", "-x", "c"],
            Language::Cplusplus11 => ["-std=c++11", "-x", "c++"],
        }
    }
}

/// Compiles sources with the header and the archive to a program, with every warning an error.
pub fn compile(language: Language, sources: &[PathBuf], program: &Path) {
    let done = Command::new(language.compiler())
        .args(["-O2", "-Wall", "-Wextra", "-Werror", "-pedantic", "-I"])
        .arg(root().join("include"))
        .args(language.words())
        .args(sources)
        .args(["-x", "none", env!("STREAMVAULT_ARCHIVE"), "-o"])
        .arg(program)
        .output()
        .unwrap_or_else(|error| panic!("{}, which CC or CXX can name: {error}", language.compiler()));
    assert!(done.status.success(), "{language:?}: {}", String::from_utf8_lossy(&done.stderr));
}

/// Compiles a source to a shared object, which a program for x86-64 can be made to load.
pub fn compile_shared(source: &Path, object: &Path) {
    let mut compiler = Command::new(Language::C99.compiler());
    let compiler = compiler.args(["-O2", "-Wall", "-Wextra", "-Werror", "-shared", "-fPIC"]);
    let done = compiler.arg(source).arg("-o").arg(object).output().unwrap();
    assert!(done.status.success(), "{}", String::from_utf8_lossy(&done.stderr));
}

/// A counter as one family of boxes starts with it: twelve bytes, mostly zeros. It is 65,280.
pub const LONG_COUNTER: [u8; 12] = [0, 0, 0, 0, 0, 0, 0, 0, 0, 0, 0xFF, 0];

/// One more than 64 bits hold.
pub const LARGE_COUNTER: [u8; 9] = [1, 0, 0, 0, 0, 0, 0, 0, 0];

/// Bytes as standard mode stores them.
pub fn unsynchronised(bytes: &[u8]) -> Vec<u8> {
    let mut stored = Vec::new();
    for (at, &byte) in bytes.iter().enumerate() {
        stored.push(byte);
        if byte == 0xFF && bytes.get(at + 1).is_some_and(|&next| next == 0 || next >= 0xE0) {
            stored.push(0);
        }
    }
    stored
}

/// The number that a variable of the environment says.
pub fn setting(name: &str, otherwise: u64) -> u64 {
    match std::env::var(name) {
        Ok(text) => text.parse().unwrap_or_else(|_| panic!("{name} is no number: {text}")),
        Err(_) => otherwise,
    }
}

/// Says which case it was when a check fails.
pub struct Case {
    pub number: u64,
    /// The variable that says with which case a run begins.
    pub from: &'static str,
}

impl Drop for Case {
    fn drop(&mut self) {
        if std::thread::panicking() {
            eprintln!("in case {0}: {1}={0} begins with it", self.number, self.from);
        }
    }
}

/// A generator of numbers, the same ones each time: splitmix64.
pub struct Numbers(pub u64);

impl Numbers {
    /// Any number.
    pub fn any(&mut self) -> u64 {
        self.0 = self.0.wrapping_add(0x9E37_79B9_7F4A_7C15);
        let mut z = self.0;
        z = (z ^ (z >> 30)).wrapping_mul(0xBF58_476D_1CE4_E5B9);
        z = (z ^ (z >> 27)).wrapping_mul(0x94D0_49BB_1331_11EB);
        z ^ (z >> 31)
    }

    /// A number below `limit`.
    pub fn below(&mut self, limit: usize) -> usize {
        (self.any() % limit as u64) as usize
    }

    /// True once in `n` times.
    pub fn once_in(&mut self, n: usize) -> bool {
        self.below(n) == 0
    }

    /// One of these.
    pub fn one<'a, T>(&mut self, of: &'a [T]) -> &'a T {
        &of[self.below(of.len())]
    }

    /// So many bytes. Those that the format treats in a special way come often.
    pub fn bytes(&mut self, len: usize) -> Vec<u8> {
        (0..len).map(|_| self.byte()).collect()
    }

    /// One such byte.
    pub fn byte(&mut self) -> u8 {
        if self.once_in(2) {
            *self.one(&[0x00, 0xFF, 0xE0, 0xDF, 0x01, 0x02, 0x7F, 0x80])
        } else {
            self.any() as u8
        }
    }
}
