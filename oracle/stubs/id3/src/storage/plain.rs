//! Stub. The crate's own file replaces tags inside files, which the oracle never does: every opening is an error.
use super::{Storage, StorageFile};
use std::io;
use std::ops::Range;

pub struct PlainStorage<F> {
    _file: F,
}

impl<F: StorageFile> PlainStorage<F> {
    pub fn new(file: F, _region: Range<u64>) -> PlainStorage<F> {
        PlainStorage { _file: file }
    }
}

fn absent() -> io::Error {
    io::Error::new(io::ErrorKind::Unsupported, "storage/plain.rs is a stub")
}

impl<'a, F: StorageFile + 'a> Storage<'a> for PlainStorage<F> {
    type Reader = io::Cursor<Vec<u8>>;
    type Writer = io::Cursor<Vec<u8>>;

    fn reader(&'a mut self) -> io::Result<Self::Reader> {
        Err(absent())
    }

    fn writer(&'a mut self) -> io::Result<Self::Writer> {
        Err(absent())
    }
}
