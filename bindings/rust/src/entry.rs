//! Entries: a key of a map that is stored or not.

use crate::error::Error;
use crate::key::Key;
use crate::map::Map;
use crate::width::Width;
use std::fmt;

/// A key of a [`Map`], stored or not.
pub enum Entry<'a, T, W: Width> {
    /// The key is stored.
    Occupied(OccupiedEntry<'a, T, W>),
    /// The key is not stored.
    Vacant(VacantEntry<'a, T, W>),
}

/// A stored key of a [`Map`].
pub struct OccupiedEntry<'a, T, W: Width> {
    map: &'a mut Map<T, W>,
    key: Key<W>,
    place: usize,
}

/// A key that a [`Map`] doesn't have.
pub struct VacantEntry<'a, T, W: Width> {
    map: &'a mut Map<T, W>,
    key: Key<W>,
    is_too_long: bool,
}

impl<'a, T, W: Width> Entry<'a, T, W> {
    /// Returns the value; inserts `value` at a key that isn't stored.
    ///
    /// # Panics
    ///
    /// If the insertion fails.
    pub fn or_insert(self, value: T) -> &'a mut T {
        self.or_insert_with(|| value)
    }

    /// Returns the value; inserts that of `make` at a key that isn't stored.
    ///
    /// # Panics
    ///
    /// If the insertion fails.
    pub fn or_insert_with(self, make: impl FnOnce() -> T) -> &'a mut T {
        match self {
            Entry::Occupied(entry) => entry.into_mut(),
            Entry::Vacant(entry) => entry.insert(make()),
        }
    }

    /// Returns the value; inserts the default at a key that isn't stored.
    ///
    /// # Panics
    ///
    /// If the insertion fails.
    pub fn or_default(self) -> &'a mut T
    where
        T: Default,
    {
        self.or_insert_with(T::default)
    }

    /// Changes the value of a stored key.
    pub fn and_modify(mut self, change: impl FnOnce(&mut T)) -> Self {
        if let Entry::Occupied(entry) = &mut self {
            change(entry.get_mut());
        }
        self
    }
}

impl<'a, T, W: Width> OccupiedEntry<'a, T, W> {
    pub(crate) fn new(map: &'a mut Map<T, W>, key: Key<W>, place: usize) -> Self {
        OccupiedEntry { map, key, place }
    }

    /// Returns the key.
    pub fn key(&self) -> &[u8] {
        &self.key
    }

    /// Returns a reference to the value.
    pub fn get(&self) -> &T {
        self.map.value_at(self.place as u64)
    }

    /// Returns a mutable reference to the value.
    pub fn get_mut(&mut self) -> &mut T {
        self.map.value_at_mut(self.place)
    }

    /// Returns a mutable reference to the value that lasts as long as the borrow of the map.
    pub fn into_mut(self) -> &'a mut T {
        self.map.value_at_mut(self.place)
    }

    /// Replaces the value and returns the old one.
    pub fn insert(&mut self, value: T) -> T {
        std::mem::replace(self.get_mut(), value)
    }

    /// Removes the key and returns its value.
    ///
    /// # Panics
    ///
    /// If the removal fails.
    pub fn remove(self) -> T {
        self.map.remove(self.key).expect("the key is stored")
    }
}

impl<'a, T, W: Width> VacantEntry<'a, T, W> {
    pub(crate) fn new(map: &'a mut Map<T, W>, key: &[u8]) -> Self {
        VacantEntry { map, key: Key::of(key), is_too_long: key.len() > W::MAX_KEY }
    }

    /// Inserts the key and returns a mutable reference to its value.
    ///
    /// # Panics
    ///
    /// If [`try_insert`](Self::try_insert) fails.
    pub fn insert(self, value: T) -> &'a mut T {
        self.try_insert(value).unwrap_or_else(|(error, _)| panic!("{error}"))
    }

    /// Inserts the key and returns a mutable reference to its value.
    ///
    /// # Errors
    ///
    /// If the key is too long, an allocation fails or the map is full; with `value`.
    pub fn try_insert(self, value: T) -> Result<&'a mut T, (Error, T)> {
        if self.is_too_long {
            return Err((Error::KeyTooLong, value));
        }
        let place = self.map.insert_vacant(&self.key, value)?;
        Ok(self.map.value_at_mut(place))
    }
}

impl<T: fmt::Debug, W: Width> fmt::Debug for Entry<'_, T, W> {
    fn fmt(&self, f: &mut fmt::Formatter<'_>) -> fmt::Result {
        match self {
            Entry::Occupied(entry) => entry.fmt(f),
            Entry::Vacant(entry) => entry.fmt(f),
        }
    }
}

impl<T: fmt::Debug, W: Width> fmt::Debug for OccupiedEntry<'_, T, W> {
    fn fmt(&self, f: &mut fmt::Formatter<'_>) -> fmt::Result {
        f.debug_struct("OccupiedEntry").field("key", &self.key).field("value", self.get()).finish()
    }
}

impl<T, W: Width> fmt::Debug for VacantEntry<'_, T, W> {
    fn fmt(&self, f: &mut fmt::Formatter<'_>) -> fmt::Result {
        f.debug_struct("VacantEntry").field("key", &self.key).finish_non_exhaustive()
    }
}
