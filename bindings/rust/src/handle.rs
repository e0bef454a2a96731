//! The memory in which a decoder or an encoder lies.

use crate::exports::At;
use crate::length_or_none;

/// An export that puts a decoder or an encoder of an encoding there.
type Put = unsafe extern "C" fn(*mut At, u32) -> bool;

/// An export that returns a length to allocate.
type Query = unsafe extern "C" fn(*mut At, usize) -> usize;

/// That many words of memory. A copy of them goes on by itself.
pub(crate) struct Handle<const WORDS: usize>([u64; WORDS]);

impl<const WORDS: usize> Handle<WORDS> {
    /// Returns what `put` puts there: a decoder or an encoder of `size` bytes.
    pub(crate) fn new(size: usize, put: Put, number: u8) -> Self {
        assert!(size <= 8 * WORDS);
        let mut handle = Handle([0; WORDS]);
        // SAFETY: the memory is as long as what is put there, and as aligned.
        assert!(unsafe { put(&mut handle.at(), number.into()) });
        handle
    }

    /// Returns where it lies.
    pub(crate) fn at(&mut self) -> At {
        At(self.0.as_mut_ptr())
    }

    /// Asks a copy, since an export may be the only one that has a decoder or an encoder.
    pub(crate) fn ask<T>(&self, question: impl FnOnce(&mut At) -> T) -> T {
        let mut copy = Handle(self.0);
        question(&mut copy.at())
    }

    /// Returns the length that `query` returns, if there is one.
    pub(crate) fn length(&self, query: Query, n: usize) -> Option<usize> {
        // SAFETY: a copy of a decoder or an encoder is one.
        length_or_none(self.ask(|at| unsafe { query(at, n) }))
    }
}
