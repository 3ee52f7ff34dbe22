//! Bounds of any length as the library takes them.

use crate::key::Key;
use crate::sys;
use crate::width::{BoundOf, Width};
use std::ops::Bound;

/// One end of a range: a bound whose key fits.
#[derive(Clone, Copy)]
pub(crate) enum End<W: Width> {
    Open,
    Included(Key<W>),
    Excluded(Key<W>),
}

impl<W: Width> End<W> {
    /// Returns the start with the same keys after it. A bound longer than any key comes right after its first bytes.
    pub(crate) fn of_start(bound: Bound<&[u8]>) -> End<W> {
        match bound {
            Bound::Unbounded => End::Open,
            Bound::Included(key) | Bound::Excluded(key) if key.len() > W::MAX_KEY => End::Excluded(Key::of(key)),
            Bound::Included(key) => End::Included(Key::of(key)),
            Bound::Excluded(key) => End::Excluded(Key::of(key)),
        }
    }

    /// Returns the end with the same keys before it.
    pub(crate) fn of_end(bound: Bound<&[u8]>) -> End<W> {
        match bound {
            Bound::Unbounded => End::Open,
            Bound::Included(key) | Bound::Excluded(key) if key.len() > W::MAX_KEY => End::Included(Key::of(key)),
            Bound::Included(key) => End::Included(Key::of(key)),
            Bound::Excluded(key) => End::Excluded(Key::of(key)),
        }
    }

    pub(crate) fn as_c(&self) -> BoundOf {
        match self {
            End::Open => (sys::UNBOUNDED, [].as_ptr(), 0),
            End::Included(key) => (sys::INCLUDED, key.as_ptr(), key.len()),
            End::Excluded(key) => (sys::EXCLUDED, key.as_ptr(), key.len()),
        }
    }
}

/// Returns the bounds of the keys that begin with `prefix`: the prefix, and the least bytes above each such key.
pub(crate) fn prefix_bounds<W: Width>(prefix: &[u8]) -> (End<W>, End<W>) {
    let start = End::of_start(Bound::Included(prefix));
    let kept = prefix.iter().rposition(|byte| *byte != u8::MAX);
    let end = match kept {
        // a longer prefix begins no key
        _ if prefix.len() > W::MAX_KEY => End::Included(Key::of(prefix)),
        None => End::Open,
        Some(at) => {
            let mut above = prefix[..=at].to_vec();
            above[at] += 1;
            End::of_end(Bound::Excluded(&above))
        }
    };
    (start, end)
}
