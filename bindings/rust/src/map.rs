//! Maps whose values have any type.

use crate::entry::{Entry, OccupiedEntry, VacantEntry};
use crate::error::Error;
use crate::key::Key;
use crate::map_iter::{IntoIter, MapIter};
use crate::slab::Slab;
use crate::u64_map::{Stats, U64Map};
use crate::width::{W32, Width};
use std::fmt;
use std::ops::{Index, RangeBounds};

/// An ordered map from keys of at most `W::MAX_KEY` bytes to values of any type.
///
/// The tree has the place of each value in a list of this crate's, so a value is dropped once, by Rust.
///
/// ```
/// use rart_proved::Map;
///
/// let mut ages = Map::new();
/// ages.insert("ann", 31);
/// *ages.entry("ann").or_insert(0) += 1;
/// ages.entry("bob").or_insert(7);
/// assert_eq!(ages["ann"], 32);
/// assert_eq!(ages.pop_first().map(|(key, age)| (key.to_vec(), age)), Some((b"ann".to_vec(), 32)));
/// ```
pub struct Map<T, W: Width = W32> {
    places: U64Map<W>,
    values: Slab<T>,
}

impl<T> Map<T> {
    /// Creates an empty map of keys of at most 32 bytes. Allocates nothing.
    pub const fn new() -> Map<T> {
        Map::with_width()
    }
}

impl<T, W: Width> Map<T, W> {
    /// Creates an empty map. Allocates nothing.
    pub const fn with_width() -> Map<T, W> {
        Map { places: U64Map::new(), values: Slab::new() }
    }

    /// Returns the number of pairs.
    pub fn len(&self) -> usize {
        self.places.len()
    }

    /// Returns whether there is no pair.
    pub fn is_empty(&self) -> bool {
        self.places.is_empty()
    }

    /// Inserts `value` at `key` and returns the old value.
    ///
    /// # Panics
    ///
    /// If [`try_insert`](Self::try_insert) fails.
    pub fn insert(&mut self, key: impl AsRef<[u8]>, value: T) -> Option<T> {
        self.try_insert(key, value).unwrap_or_else(|(error, _)| panic!("{error}"))
    }

    /// Inserts `value` at `key` and returns the old value.
    ///
    /// # Errors
    ///
    /// If the key is too long, an allocation fails or the map is full; with `value`.
    pub fn try_insert(&mut self, key: impl AsRef<[u8]>, value: T) -> Result<Option<T>, (Error, T)> {
        let place = self.values.free_place();
        match self.places.insert_new(key, place as u64) {
            Ok(None) => {
                self.values.fill(place, value);
                Ok(None)
            }
            Ok(Some(stored)) => Ok(Some(std::mem::replace(self.values.get_mut(stored as usize), value))),
            Err(error) => Err((error, value)),
        }
    }

    /// Inserts a value at a new key. Returns its place.
    pub(crate) fn insert_vacant(&mut self, key: &[u8], value: T) -> Result<usize, (Error, T)> {
        let place = self.values.free_place();
        match self.places.insert_new(key, place as u64) {
            Ok(_) => {
                self.values.fill(place, value);
                Ok(place)
            }
            Err(error) => Err((error, value)),
        }
    }

    fn place_of(&self, key: &[u8]) -> Option<usize> {
        Some(self.places.get(key)? as usize)
    }

    pub(crate) fn value_at(&self, place: u64) -> &T {
        self.values.get(place)
    }

    pub(crate) fn value_at_mut(&mut self, place: usize) -> &mut T {
        self.values.get_mut(place)
    }

    /// Returns a reference to the value at `key`.
    pub fn get(&self, key: impl AsRef<[u8]>) -> Option<&T> {
        Some(self.value_at(self.places.get(key)?))
    }

    /// Returns a mutable reference to the value at `key`.
    pub fn get_mut(&mut self, key: impl AsRef<[u8]>) -> Option<&mut T> {
        let place = self.place_of(key.as_ref())?;
        Some(self.value_at_mut(place))
    }

    /// Returns whether `key` is stored.
    pub fn contains_key(&self, key: impl AsRef<[u8]>) -> bool {
        self.places.contains_key(key)
    }

    /// Returns the entry at `key`, to read it or to insert one.
    pub fn entry(&mut self, key: impl AsRef<[u8]>) -> Entry<'_, T, W> {
        let key = key.as_ref();
        match self.place_of(key) {
            Some(place) => Entry::Occupied(OccupiedEntry::new(self, Key::of(key), place)),
            None => Entry::Vacant(VacantEntry::new(self, key)),
        }
    }

    /// Removes `key` and returns its value.
    ///
    /// # Panics
    ///
    /// If [`try_remove`](Self::try_remove) fails.
    pub fn remove(&mut self, key: impl AsRef<[u8]>) -> Option<T> {
        self.try_remove(key).unwrap_or_else(|error| panic!("{error}"))
    }

    /// Removes `key` and returns its value.
    ///
    /// # Errors
    ///
    /// [`Error::Memory`] if the parent node must shrink and the allocation fails.
    pub fn try_remove(&mut self, key: impl AsRef<[u8]>) -> Result<Option<T>, Error> {
        self.values.reserve_free();
        let place = self.places.try_remove(key)?;
        Ok(place.and_then(|place| self.values.take(place as usize)))
    }

    /// Removes all pairs.
    pub fn clear(&mut self) {
        self.places.clear();
        self.values.clear();
    }

    /// Returns the longest stored key that begins `probe`, as a part of it, and a reference to its value.
    pub fn longest_prefix<'p>(&self, probe: &'p [u8]) -> Option<(&'p [u8], &T)> {
        let (key, place) = self.places.longest_prefix(probe)?;
        Some((key, self.value_at(place)))
    }

    /// Returns the stored keys that begin `probe`, as parts of it, with references to their values, the shortest first.
    pub fn matches<'p>(&self, probe: &'p [u8]) -> impl Iterator<Item = (&'p [u8], &T)> {
        self.places.matches(probe).map(|(key, place)| (key, self.value_at(place)))
    }

    /// Returns the pair with the least key.
    pub fn first_key_value(&self) -> Option<(Key<W>, &T)> {
        let (key, place) = self.places.first_key_value()?;
        Some((key, self.value_at(place)))
    }

    /// Returns the pair with the greatest key.
    pub fn last_key_value(&self) -> Option<(Key<W>, &T)> {
        let (key, place) = self.places.last_key_value()?;
        Some((key, self.value_at(place)))
    }

    /// Removes the pair with the least key and returns it.
    ///
    /// # Panics
    ///
    /// If [`try_remove`](Self::try_remove) fails.
    pub fn pop_first(&mut self) -> Option<(Key<W>, T)> {
        let (key, _) = self.places.first_key_value()?;
        Some((key, self.remove(key)?))
    }

    /// Removes the pair with the greatest key and returns it.
    ///
    /// # Panics
    ///
    /// If [`try_remove`](Self::try_remove) fails.
    pub fn pop_last(&mut self) -> Option<(Key<W>, T)> {
        let (key, _) = self.places.last_key_value()?;
        Some((key, self.remove(key)?))
    }

    /// Returns an iterator over the pairs, ascending by key. It goes from both ends.
    pub fn iter(&self) -> MapIter<'_, T, W> {
        MapIter::new(self, self.places.iter())
    }

    /// Returns an iterator over the pairs whose key is in a range, ascending. A range that ends below its start has
    /// none.
    pub fn range<Q: AsRef<[u8]> + ?Sized>(&self, range: impl RangeBounds<Q>) -> MapIter<'_, T, W> {
        MapIter::new(self, self.places.range(range))
    }

    /// Returns an iterator over the pairs whose key begins with `prefix`, ascending.
    pub fn prefix(&self, prefix: impl AsRef<[u8]>) -> MapIter<'_, T, W> {
        MapIter::new(self, self.places.prefix(prefix))
    }

    /// Returns an iterator over the keys, ascending.
    pub fn keys(&self) -> impl DoubleEndedIterator<Item = Key<W>> {
        self.places.iter().map(|(key, _)| key)
    }

    /// Returns an iterator over the values, ascending by key.
    pub fn values(&self) -> impl DoubleEndedIterator<Item = &T> {
        self.iter().map(|(_, value)| value)
    }

    /// Returns the number of keys that both maps have.
    pub fn intersect_count<U>(&self, other: &Map<U, W>) -> usize {
        self.places.intersect_count(&other.places)
    }

    /// Counts the nodes.
    ///
    /// # Errors
    ///
    /// [`Error::Memory`] if an allocation fails.
    pub fn stats(&self) -> Result<Stats, Error> {
        self.places.stats()
    }
}

impl<T, W: Width> Default for Map<T, W> {
    fn default() -> Map<T, W> {
        Map::with_width()
    }
}

impl<T: Clone, W: Width> Clone for Map<T, W> {
    fn clone(&self) -> Map<T, W> {
        self.iter().map(|(key, value)| (key, value.clone())).collect()
    }
}

impl<T: fmt::Debug, W: Width> fmt::Debug for Map<T, W> {
    fn fmt(&self, f: &mut fmt::Formatter<'_>) -> fmt::Result {
        f.debug_map().entries(self).finish()
    }
}

impl<T: PartialEq, W: Width> PartialEq for Map<T, W> {
    fn eq(&self, other: &Map<T, W>) -> bool {
        self.len() == other.len() && self.iter().eq(other.iter())
    }
}

impl<T: Eq, W: Width> Eq for Map<T, W> {}

impl<T, W: Width, Q: AsRef<[u8]>> Index<Q> for Map<T, W> {
    type Output = T;

    /// # Panics
    ///
    /// If the key is not stored.
    fn index(&self, key: Q) -> &T {
        self.get(key).expect("the key is stored")
    }
}

impl<T, W: Width, K: AsRef<[u8]>> Extend<(K, T)> for Map<T, W> {
    fn extend<I: IntoIterator<Item = (K, T)>>(&mut self, pairs: I) {
        for (key, value) in pairs {
            self.insert(key, value);
        }
    }
}

impl<T, W: Width, K: AsRef<[u8]>> FromIterator<(K, T)> for Map<T, W> {
    fn from_iter<I: IntoIterator<Item = (K, T)>>(pairs: I) -> Map<T, W> {
        let mut map = Map::with_width();
        map.extend(pairs);
        map
    }
}

impl<'a, T, W: Width> IntoIterator for &'a Map<T, W> {
    type Item = (Key<W>, &'a T);
    type IntoIter = MapIter<'a, T, W>;

    fn into_iter(self) -> MapIter<'a, T, W> {
        self.iter()
    }
}

impl<T, W: Width> IntoIterator for Map<T, W> {
    type Item = (Key<W>, T);
    type IntoIter = IntoIter<T, W>;

    fn into_iter(self) -> IntoIter<T, W> {
        IntoIter::new(self)
    }
}
