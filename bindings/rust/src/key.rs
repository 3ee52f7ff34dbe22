//! Keys and bounds that are kept inline.

use crate::width::Width;
use std::borrow::Borrow;
use std::cmp::Ordering;
use std::fmt;
use std::hash::{Hash, Hasher};
use std::ops::Deref;

/// A stored key, by value. It reads as its bytes.
pub struct Key<W: Width> {
    bytes: W::Inline,
    len: u8,
}

impl<W: Width> Key<W> {
    /// Copies at most `W::MAX_KEY` bytes.
    pub(crate) fn of(bytes: &[u8]) -> Key<W> {
        let len = bytes.len().min(W::MAX_KEY);
        let mut inline = W::ZEROS;
        inline.as_mut()[..len].copy_from_slice(&bytes[..len]);
        Key { bytes: inline, len: len as u8 }
    }

    /// Returns the bytes.
    pub fn as_bytes(&self) -> &[u8] {
        &self.bytes.as_ref()[..usize::from(self.len)]
    }
}

impl<W: Width> Clone for Key<W> {
    fn clone(&self) -> Key<W> {
        *self
    }
}

impl<W: Width> Copy for Key<W> {}

impl<W: Width> Deref for Key<W> {
    type Target = [u8];

    fn deref(&self) -> &[u8] {
        self.as_bytes()
    }
}

impl<W: Width> AsRef<[u8]> for Key<W> {
    fn as_ref(&self) -> &[u8] {
        self.as_bytes()
    }
}

impl<W: Width> Borrow<[u8]> for Key<W> {
    fn borrow(&self) -> &[u8] {
        self.as_bytes()
    }
}

impl<W: Width> fmt::Debug for Key<W> {
    fn fmt(&self, f: &mut fmt::Formatter<'_>) -> fmt::Result {
        write!(f, "b\"{}\"", self.escape_ascii())
    }
}

impl<W: Width> PartialEq for Key<W> {
    fn eq(&self, other: &Key<W>) -> bool {
        self.as_bytes() == other.as_bytes()
    }
}

impl<W: Width> Eq for Key<W> {}

impl<W: Width> PartialEq<[u8]> for Key<W> {
    fn eq(&self, other: &[u8]) -> bool {
        self.as_bytes() == other
    }
}

impl<W: Width, const N: usize> PartialEq<&[u8; N]> for Key<W> {
    fn eq(&self, other: &&[u8; N]) -> bool {
        self.as_bytes() == *other
    }
}

impl<W: Width> PartialOrd for Key<W> {
    fn partial_cmp(&self, other: &Key<W>) -> Option<Ordering> {
        Some(self.cmp(other))
    }
}

impl<W: Width> Ord for Key<W> {
    fn cmp(&self, other: &Key<W>) -> Ordering {
        self.as_bytes().cmp(other.as_bytes())
    }
}

impl<W: Width> Hash for Key<W> {
    fn hash<H: Hasher>(&self, state: &mut H) {
        self.as_bytes().hash(state);
    }
}
