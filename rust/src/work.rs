//! Buffers to resynchronise to.

/// How deep frames may lie inside one another, and so how many bodies may stand resynchronised at once.
pub(crate) const MOST_DEPTH: usize = 8;

/// A buffer that a [`Reader`](crate::Reader) or a [`Meter`](crate::Meter) resynchronises to.
///
/// A slice stays as long as it is, and a frame that needs more is refused with
/// [`SV_WORK_TOO_SMALL`](crate::sys::SV_WORK_TOO_SMALL). A `Vec<u8>` grows instead, to at most eight times the tag, which
/// suffices for every tag; it may be empty at first.
///
/// These are all there are: other types cannot be made one.
///
/// ```compile_fail
/// struct Mine(Vec<u8>);
///
/// impl streamvault::Work for Mine {
///     fn bytes(&self) -> &[u8] {
///         &self.0
///     }
///     fn bytes_mut(&mut self) -> &mut [u8] {
///         &mut self.0
///     }
///     fn grow(&mut self, _most: usize) -> bool {
///         false
///     }
/// }
/// ```
pub trait Work: sealed::Sealed {
    /// The buffer as it is now.
    fn bytes(&self) -> &[u8];

    /// The same, to be written to.
    fn bytes_mut(&mut self) -> &mut [u8];

    /// Makes the buffer longer, up to `most` bytes; false where it stays as it was.
    fn grow(&mut self, most: usize) -> bool;
}

/// Keeps [`Work`] to the types of this module: what a reader lends lies where the library said only if the buffer is the
/// same at each call.
mod sealed {
    pub trait Sealed {}
    impl Sealed for &mut [u8] {}
    impl<const N: usize> Sealed for &mut [u8; N] {}
    impl Sealed for Vec<u8> {}
    impl Sealed for &mut Vec<u8> {}
}

impl Work for &mut [u8] {
    fn bytes(&self) -> &[u8] {
        self
    }

    fn bytes_mut(&mut self) -> &mut [u8] {
        self
    }

    fn grow(&mut self, _most: usize) -> bool {
        false
    }
}

impl<const N: usize> Work for &mut [u8; N] {
    fn bytes(&self) -> &[u8] {
        &self[..]
    }

    fn bytes_mut(&mut self) -> &mut [u8] {
        &mut self[..]
    }

    fn grow(&mut self, _most: usize) -> bool {
        false
    }
}

impl Work for Vec<u8> {
    fn bytes(&self) -> &[u8] {
        self
    }

    fn bytes_mut(&mut self) -> &mut [u8] {
        self
    }

    fn grow(&mut self, most: usize) -> bool {
        let longer = (self.len() * 2).max(most.div_ceil(MOST_DEPTH)).min(most);
        let grows = self.len() < longer;
        if grows {
            self.resize(longer, 0);
        }
        grows
    }
}

impl Work for &mut Vec<u8> {
    fn bytes(&self) -> &[u8] {
        self
    }

    fn bytes_mut(&mut self) -> &mut [u8] {
        self
    }

    fn grow(&mut self, most: usize) -> bool {
        (**self).grow(most)
    }
}

#[cfg(test)]
mod tests {
    use super::*;

    #[test]
    fn a_vector_grows_to_the_most_and_no_further() {
        let mut work = Vec::new();
        let mut lengths = Vec::new();
        while work.grow(100) {
            lengths.push(work.len());
        }
        assert_eq!(lengths, [13, 26, 52, 100]);
        assert!(!work.grow(100));
        assert!(!Vec::new().grow(0));
    }

    #[test]
    fn a_slice_does_not_grow() {
        let mut bytes = [0; 4];
        assert!(!(&mut bytes).grow(100));
        assert!(!(&mut bytes[..]).grow(100));
    }
}
