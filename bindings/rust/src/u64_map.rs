//! Maps whose values are `u64`.

use crate::bounds::{End, prefix_bounds};
use crate::error::{Error, LoadError, error_of, load_error_of};
use crate::iter::Iter;
use crate::key::Key;
use crate::sys;
use crate::width::{Bytes, W32, Width};
use std::cell::UnsafeCell;
use std::fmt;
use std::mem::MaybeUninit;
use std::ops::RangeBounds;

/// The nodes of a map, counted.
#[derive(Clone, Copy, Debug, Default, PartialEq, Eq)]
pub struct Stats {
    /// Nodes without children.
    pub leaves: usize,
    /// Nodes with a value.
    pub values: usize,
    /// Nodes with children.
    pub inner_nodes: usize,
    /// The children of all nodes.
    pub children: usize,
    /// The sum of the capacities of the inner nodes.
    pub width: usize,
    /// The most nodes on a path from the root.
    pub height: usize,
}

/// An ordered map from keys of at most `W::MAX_KEY` bytes to `u64`.
///
/// ```
/// use rart_proved::U64Map;
///
/// let mut routes: U64Map = U64Map::new();
/// routes.insert([10], 1);
/// routes.insert([10, 16], 2);
/// assert_eq!(routes.longest_prefix(&[10, 16, 2, 3]), Some((&[10, 16][..], 2)));
/// assert_eq!(routes.longest_prefix(&[10, 17, 2, 3]), Some((&[10][..], 1)));
/// ```
pub struct U64Map<W: Width = W32> {
    // The library takes each map by `*mut`, and a look-up leaves the same map in its handle. One call at a time uses
    // it, since the type is not `Sync`.
    handle: UnsafeCell<W::Handle>,
}

fn as_c(bytes: &[u8]) -> Bytes {
    (bytes.as_ptr(), bytes.len())
}

impl<W: Width> U64Map<W> {
    /// Creates an empty map. Allocates nothing.
    pub const fn new() -> U64Map<W> {
        U64Map { handle: UnsafeCell::new(W::EMPTY) }
    }

    /// Makes the map of pairs whose keys ascend; of equal keys the last pair stays. Each node is made once, so this
    /// takes less time than insertions.
    ///
    /// ```
    /// use rart_proved::{LoadError, U64Map};
    ///
    /// let map: U64Map = U64Map::from_sorted([("a", 1), ("b", 2)]).unwrap();
    /// assert_eq!(map.len(), 2);
    /// let refused = U64Map::<rart_proved::W32>::from_sorted([("b", 1), ("a", 2)]);
    /// assert_eq!(refused, Err(LoadError::Unsorted { at: 1 }));
    /// ```
    ///
    /// # Errors
    ///
    /// If a key is too long or below the one before it, or an allocation fails.
    pub fn from_sorted<K: AsRef<[u8]>>(pairs: impl IntoIterator<Item = (K, u64)>) -> Result<U64Map<W>, LoadError> {
        let pairs: Vec<W::Pair> = pairs.into_iter().map(|(key, value)| W::pair(key.as_ref(), value)).collect();
        let mut map = U64Map::new();
        let mut at = 0;
        match unsafe { W::load_sorted(map.handle.get_mut(), &pairs, &mut at) } {
            sys::DONE => Ok(map),
            status => Err(load_error_of(status, at)),
        }
    }

    /// Returns the number of pairs.
    pub fn len(&self) -> usize {
        // SAFETY: the handle is zeroed or as the last call left it, and no other call runs. So in each call below.
        unsafe { W::len(self.handle.get()) }
    }

    /// Returns whether there is no pair.
    pub fn is_empty(&self) -> bool {
        self.len() == 0
    }

    /// Inserts `value` at `key` and returns the old value.
    ///
    /// # Panics
    ///
    /// If [`try_insert`](Self::try_insert) fails.
    pub fn insert(&mut self, key: impl AsRef<[u8]>, value: u64) -> Option<u64> {
        self.try_insert(key, value).unwrap_or_else(|error| panic!("{error}"))
    }

    /// Inserts `value` at `key` and returns the old value.
    ///
    /// # Errors
    ///
    /// If the key is too long, an allocation fails or the map is full.
    pub fn try_insert(&mut self, key: impl AsRef<[u8]>, value: u64) -> Result<Option<u64>, Error> {
        let mut old = 0;
        match unsafe { W::insert(self.handle.get_mut(), as_c(key.as_ref()), value, &mut old) } {
            sys::DONE => Ok(None),
            sys::REPLACED => Ok(Some(old)),
            status => Err(error_of(status)),
        }
    }

    /// Inserts `value` at `key` if the key is new, and returns the value of a stored key, which it keeps.
    ///
    /// # Errors
    ///
    /// If the key is too long, an allocation fails or the map is full.
    pub fn insert_new(&mut self, key: impl AsRef<[u8]>, value: u64) -> Result<Option<u64>, Error> {
        let mut stored = 0;
        match unsafe { W::try_insert(self.handle.get_mut(), as_c(key.as_ref()), value, &mut stored) } {
            sys::DONE => Ok(None),
            sys::STORED => Ok(Some(stored)),
            status => Err(error_of(status)),
        }
    }

    /// Returns the value at `key`.
    pub fn get(&self, key: impl AsRef<[u8]>) -> Option<u64> {
        let mut value = 0;
        unsafe { W::get(self.handle.get(), as_c(key.as_ref()), &mut value) }.then_some(value)
    }

    /// Returns whether `key` is stored.
    pub fn contains_key(&self, key: impl AsRef<[u8]>) -> bool {
        self.get(key).is_some()
    }

    /// Removes `key` and returns its value.
    ///
    /// # Panics
    ///
    /// If [`try_remove`](Self::try_remove) fails.
    pub fn remove(&mut self, key: impl AsRef<[u8]>) -> Option<u64> {
        self.try_remove(key).unwrap_or_else(|error| panic!("{error}"))
    }

    /// Removes `key` and returns its value.
    ///
    /// # Errors
    ///
    /// [`Error::Memory`] if the parent node must shrink and the allocation fails.
    pub fn try_remove(&mut self, key: impl AsRef<[u8]>) -> Result<Option<u64>, Error> {
        let mut old = 0;
        match unsafe { W::remove(self.handle.get_mut(), as_c(key.as_ref()), &mut old) } {
            sys::DONE => Ok(Some(old)),
            // no stored key is too long
            sys::ABSENT | sys::KEY_TOO_LONG => Ok(None),
            status => Err(error_of(status)),
        }
    }

    /// Removes all pairs whose key begins with `prefix` and returns their number.
    ///
    /// # Errors
    ///
    /// [`Error::Memory`] if the parent node must shrink and the allocation fails.
    pub fn remove_prefix(&mut self, prefix: impl AsRef<[u8]>) -> Result<usize, Error> {
        let mut removed = 0;
        match unsafe { W::remove_prefix(self.handle.get_mut(), as_c(prefix.as_ref()), &mut removed) } {
            sys::DONE => Ok(removed),
            sys::KEY_TOO_LONG => Ok(0),
            status => Err(error_of(status)),
        }
    }

    /// Removes all pairs.
    pub fn clear(&mut self) {
        unsafe { W::clear(self.handle.get_mut()) }
    }

    /// Returns the longest stored key that begins `probe`, as a part of it, with its value.
    pub fn longest_prefix<'p>(&self, probe: &'p [u8]) -> Option<(&'p [u8], u64)> {
        let (mut len, mut value) = (0, 0);
        unsafe { W::longest_prefix(self.handle.get(), as_c(probe), &mut len, &mut value) }
            .then(|| (&probe[..len], value))
    }

    /// Returns the stored keys that begin `probe`, as parts of it, with their values, the shortest key first.
    pub fn matches<'p>(&self, probe: &'p [u8]) -> impl Iterator<Item = (&'p [u8], u64)> {
        // there is one match at most for each length
        let cut = &probe[..probe.len().min(W::MAX_KEY)];
        let mut pairs = Vec::with_capacity(4);
        loop {
            let room = pairs.capacity();
            let (mut written, mut more) = (0, false);
            let status = unsafe {
                W::matches(self.handle.get(), as_c(cut), (pairs.as_mut_ptr(), room), &mut written, &mut more)
            };
            debug_assert_eq!(status, sys::DONE);
            if !more {
                // SAFETY: the call wrote so many pairs.
                unsafe { pairs.set_len(written) };
                break;
            }
            pairs.reserve(2 * room);
        }
        pairs.into_iter().map(move |pair| {
            let (key, value) = W::parts(&pair);
            (&probe[..key.len()], value)
        })
    }

    /// Returns the pair with the least key.
    pub fn first_key_value(&self) -> Option<(Key<W>, u64)> {
        self.end_pair(W::first)
    }

    /// Returns the pair with the greatest key.
    pub fn last_key_value(&self) -> Option<(Key<W>, u64)> {
        self.end_pair(W::last)
    }

    fn end_pair(&self, read: unsafe fn(*mut W::Handle, *mut W::Pair) -> bool) -> Option<(Key<W>, u64)> {
        let mut pair = MaybeUninit::uninit();
        if !unsafe { read(self.handle.get(), pair.as_mut_ptr()) } {
            return None;
        }
        // SAFETY: the call wrote it.
        let pair = unsafe { pair.assume_init() };
        let (key, value) = W::parts(&pair);
        Some((Key::of(key), value))
    }

    /// Removes the pair with the least key and returns it.
    ///
    /// # Panics
    ///
    /// If [`try_remove`](Self::try_remove) fails.
    pub fn pop_first(&mut self) -> Option<(Key<W>, u64)> {
        let (key, value) = self.first_key_value()?;
        self.remove(key);
        Some((key, value))
    }

    /// Removes the pair with the greatest key and returns it.
    ///
    /// # Panics
    ///
    /// If [`try_remove`](Self::try_remove) fails.
    pub fn pop_last(&mut self) -> Option<(Key<W>, u64)> {
        let (key, value) = self.last_key_value()?;
        self.remove(key);
        Some((key, value))
    }

    /// Returns the number of keys that both maps have.
    pub fn intersect_count(&self, other: &U64Map<W>) -> usize {
        if std::ptr::eq(self, other) {
            return self.len();
        }
        unsafe { W::intersect_count(self.handle.get(), other.handle.get()) }
    }

    /// Counts the nodes.
    ///
    /// # Errors
    ///
    /// [`Error::Memory`] if an allocation fails.
    pub fn stats(&self) -> Result<Stats, Error> {
        let mut stats = sys::RartStats { leaves: 0, values: 0, inner_nodes: 0, children: 0, width: 0, height: 0 };
        match unsafe { W::stats(self.handle.get(), &mut stats) } {
            sys::DONE => {}
            status => return Err(error_of(status)),
        }
        let sys::RartStats { leaves, values, inner_nodes, children, width, height } = stats;
        Ok(Stats { leaves, values, inner_nodes, children, width, height })
    }

    /// Returns an iterator over the pairs, ascending by key. It goes from both ends.
    ///
    /// The map can't change while an iterator reads it:
    ///
    /// ```compile_fail,E0502
    /// let mut map: rart_proved::U64Map = [("a", 1)].into_iter().collect();
    /// let pairs = map.iter();
    /// map.insert("b", 2);
    /// assert_eq!(pairs.count(), 2);
    /// ```
    pub fn iter(&self) -> Iter<'_, W> {
        Iter::new(self, End::Open, End::Open)
    }

    /// Returns an iterator over the pairs whose key is in a range, ascending. A range that ends below its start has
    /// none.
    ///
    /// ```
    /// use rart_proved::U64Map;
    /// use std::ops::Bound;
    ///
    /// let map: U64Map = [("a", 1), ("b", 2), ("c", 3)].into_iter().collect();
    /// let pairs = map.range::<[u8]>((Bound::Excluded(&b"a"[..]), Bound::Unbounded));
    /// assert_eq!(pairs.map(|(_, value)| value).collect::<Vec<_>>(), [2, 3]);
    /// ```
    pub fn range<Q: AsRef<[u8]> + ?Sized>(&self, range: impl RangeBounds<Q>) -> Iter<'_, W> {
        let start = End::of_start(range.start_bound().map(AsRef::as_ref));
        let end = End::of_end(range.end_bound().map(AsRef::as_ref));
        Iter::new(self, start, end)
    }

    /// Returns an iterator over the pairs whose key begins with `prefix`, ascending.
    pub fn prefix(&self, prefix: impl AsRef<[u8]>) -> Iter<'_, W> {
        let (start, end) = prefix_bounds(prefix.as_ref());
        Iter::new(self, start, end)
    }

    /// Writes pairs within two bounds to `out`, from the front or from the back. Returns their number, and whether
    /// pairs are left.
    pub(crate) fn batch(
        &self,
        start: &End<W>,
        end: &End<W>,
        is_descending: bool,
        out: &mut [MaybeUninit<W::Pair>],
    ) -> (usize, bool) {
        let (mut written, mut more) = (0, false);
        let room = (out.as_mut_ptr().cast(), out.len());
        let call = if is_descending { W::range_descending } else { W::range };
        let status = unsafe { call(self.handle.get(), start.as_c(), end.as_c(), room, &mut written, &mut more) };
        if status != sys::DONE {
            panic!("{}", error_of(status));
        }
        (written, more)
    }
}

impl<W: Width> Default for U64Map<W> {
    fn default() -> U64Map<W> {
        U64Map::new()
    }
}

impl<W: Width> Drop for U64Map<W> {
    fn drop(&mut self) {
        unsafe { W::free(self.handle.get_mut()) }
    }
}

impl<W: Width> Clone for U64Map<W> {
    fn clone(&self) -> U64Map<W> {
        U64Map::from_sorted(self).unwrap_or_else(|error| panic!("{error}"))
    }
}

impl<W: Width> fmt::Debug for U64Map<W> {
    fn fmt(&self, f: &mut fmt::Formatter<'_>) -> fmt::Result {
        f.debug_map().entries(self).finish()
    }
}

impl<W: Width> PartialEq for U64Map<W> {
    fn eq(&self, other: &U64Map<W>) -> bool {
        self.len() == other.len() && self.iter().eq(other.iter())
    }
}

impl<W: Width> Eq for U64Map<W> {}

impl<W: Width, K: AsRef<[u8]>> Extend<(K, u64)> for U64Map<W> {
    fn extend<I: IntoIterator<Item = (K, u64)>>(&mut self, pairs: I) {
        for (key, value) in pairs {
            self.insert(key, value);
        }
    }
}

impl<W: Width, K: AsRef<[u8]>> FromIterator<(K, u64)> for U64Map<W> {
    fn from_iter<I: IntoIterator<Item = (K, u64)>>(pairs: I) -> U64Map<W> {
        let mut map = U64Map::new();
        map.extend(pairs);
        map
    }
}

impl<'a, W: Width> IntoIterator for &'a U64Map<W> {
    type Item = (Key<W>, u64);
    type IntoIter = Iter<'a, W>;

    fn into_iter(self) -> Iter<'a, W> {
        self.iter()
    }
}
