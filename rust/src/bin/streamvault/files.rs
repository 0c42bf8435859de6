//! Files below paths.

use crate::journal;
use std::collections::{HashSet, VecDeque};
use std::fs::{self, Metadata};
use std::io;
use std::os::unix::fs::MetadataExt;
use std::path::{Path, PathBuf};

/// What was met below the paths.
#[derive(Debug)]
pub enum Met {
    /// A file.
    File(PathBuf),
    /// A file that was met before under another name.
    Again,
    /// The journal of a file, by its name, and that file.
    Journal(PathBuf, PathBuf),
    /// A link to a folder, which is not followed: its files are met under its own name.
    Link,
    /// A link to a folder that is not met otherwise, and not followed either.
    Elsewhere(PathBuf),
    /// Something that cannot be read.
    Unreadable(PathBuf, io::Error),
}

/// Device and number, which a file or a folder keeps under every name.
pub type Identity = (u64, u64);

/// Of a file or a folder that was looked at.
pub fn identity(metadata: &Metadata) -> Identity {
    (metadata.dev(), metadata.ino())
}

/// Goes through all files at or below some paths, those of a folder by their names. Links to folders come last: only then
/// is known which folders were met.
pub struct Files {
    /// What is still to be looked at, the next one last; whether the caller named it.
    waiting: Vec<(PathBuf, bool)>,
    /// The files met.
    seen: HashSet<Identity>,
    /// The folders whose files are met.
    entered: HashSet<Identity>,
    /// The links to folders, and to which.
    links: VecDeque<(PathBuf, Identity)>,
}

impl Files {
    /// The files at or below the paths, in their order.
    pub fn below(paths: Vec<PathBuf>) -> Files {
        let waiting = paths.into_iter().rev().map(|path| (path, true)).collect();
        Files { waiting, seen: HashSet::new(), entered: HashSet::new(), links: VecDeque::new() }
    }

    /// What lies at a path; nothing where it is a folder, a link to one, or not to be read at all, as a pipe.
    fn look(&mut self, path: PathBuf, named: bool) -> io::Result<Option<Met>> {
        let found = fs::symlink_metadata(&path)?;
        let is_link = found.is_symlink();
        let metadata = if is_link { fs::metadata(&path)? } else { found };
        if metadata.is_dir() && is_link && !named {
            self.links.push_back((path, identity(&metadata)));
            return Ok(None);
        }
        if metadata.is_dir() {
            self.enter(&path)?;
            self.entered.insert(identity(&metadata));
            return Ok(None);
        }
        if metadata.is_file() {
            return Ok(Some(self.file(path, &metadata)));
        }
        if named {
            return Err(io::Error::other("neither a file nor a folder"));
        }
        Ok(None)
    }

    fn file(&mut self, path: PathBuf, metadata: &Metadata) -> Met {
        if let Some(song) = journal::song_of(&path) {
            Met::Journal(path, song)
        } else if self.seen.insert(identity(metadata)) {
            Met::File(path)
        } else {
            Met::Again
        }
    }

    /// Puts what a folder holds before all that waits.
    fn enter(&mut self, folder: &Path) -> io::Result<()> {
        let mut inside = Vec::new();
        for entry in fs::read_dir(folder)? {
            inside.push((entry?.path(), false));
        }
        inside.sort_by(|a, b| b.cmp(a));
        self.waiting.append(&mut inside);
        Ok(())
    }

    /// The next link to a folder, once nothing else waits.
    fn link(&mut self) -> Option<Met> {
        let (path, folder) = self.links.pop_front()?;
        Some(if self.entered.contains(&folder) { Met::Link } else { Met::Elsewhere(path) })
    }
}

impl Iterator for Files {
    type Item = Met;

    fn next(&mut self) -> Option<Met> {
        while let Some((path, named)) = self.waiting.pop() {
            match self.look(path.clone(), named) {
                Ok(None) => {}
                Ok(Some(met)) => return Some(met),
                Err(error) => return Some(Met::Unreadable(path, error)),
            }
        }
        self.link()
    }
}
