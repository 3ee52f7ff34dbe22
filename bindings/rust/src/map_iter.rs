//! Iterators over maps whose values have any type.

use crate::iter::Iter;
use crate::key::Key;
use crate::map::Map;
use crate::width::Width;
use std::fmt;
use std::iter::FusedIterator;

/// An iterator over keys and references to their values, ascending by key. It borrows the map, and goes from both ends.
pub struct MapIter<'a, T, W: Width> {
    map: &'a Map<T, W>,
    places: Iter<'a, W>,
}

impl<'a, T, W: Width> MapIter<'a, T, W> {
    pub(crate) fn new(map: &'a Map<T, W>, places: Iter<'a, W>) -> MapIter<'a, T, W> {
        MapIter { map, places }
    }
}

impl<'a, T, W: Width> Iterator for MapIter<'a, T, W> {
    type Item = (Key<W>, &'a T);

    fn next(&mut self) -> Option<(Key<W>, &'a T)> {
        let (key, place) = self.places.next()?;
        Some((key, self.map.value_at(place)))
    }
}

impl<'a, T, W: Width> DoubleEndedIterator for MapIter<'a, T, W> {
    fn next_back(&mut self) -> Option<(Key<W>, &'a T)> {
        let (key, place) = self.places.next_back()?;
        Some((key, self.map.value_at(place)))
    }
}

impl<T, W: Width> FusedIterator for MapIter<'_, T, W> {}

impl<T, W: Width> fmt::Debug for MapIter<'_, T, W> {
    fn fmt(&self, f: &mut fmt::Formatter<'_>) -> fmt::Result {
        f.debug_struct("MapIter").finish_non_exhaustive()
    }
}

/// An iterator that removes the pairs of a map, from both ends.
///
/// # Panics
///
/// A call panics if an allocation of the library fails.
pub struct IntoIter<T, W: Width> {
    map: Map<T, W>,
}

impl<T, W: Width> IntoIter<T, W> {
    pub(crate) fn new(map: Map<T, W>) -> IntoIter<T, W> {
        IntoIter { map }
    }
}

impl<T, W: Width> Iterator for IntoIter<T, W> {
    type Item = (Key<W>, T);

    fn next(&mut self) -> Option<(Key<W>, T)> {
        self.map.pop_first()
    }

    fn size_hint(&self) -> (usize, Option<usize>) {
        (self.map.len(), Some(self.map.len()))
    }
}

impl<T, W: Width> DoubleEndedIterator for IntoIter<T, W> {
    fn next_back(&mut self) -> Option<(Key<W>, T)> {
        self.map.pop_last()
    }
}

impl<T, W: Width> ExactSizeIterator for IntoIter<T, W> {}

impl<T, W: Width> FusedIterator for IntoIter<T, W> {}

impl<T, W: Width> fmt::Debug for IntoIter<T, W> {
    fn fmt(&self, f: &mut fmt::Formatter<'_>) -> fmt::Result {
        f.debug_struct("IntoIter").field("len", &self.map.len()).finish_non_exhaustive()
    }
}
