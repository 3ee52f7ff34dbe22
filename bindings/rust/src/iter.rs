//! Iterators, which read a map in batches.

use crate::bounds::End;
use crate::key::Key;
use crate::u64_map::U64Map;
use crate::width::Width;
use std::fmt;
use std::iter::FusedIterator;
use std::mem::MaybeUninit;

/// The pairs of the first batch: as many as a range of ten needs. The next ones are larger, since each batch seeks its
/// start anew.
const FIRST: usize = 16;

/// The most pairs of a batch.
const ROOM: usize = 32;

/// Pairs that were read and not yet returned.
struct Batch<W: Width> {
    pairs: [MaybeUninit<W::Pair>; ROOM],
    next: usize,
    end: usize,
    room: usize,
}

impl<W: Width> Batch<W> {
    fn new() -> Batch<W> {
        Batch { pairs: [MaybeUninit::uninit(); ROOM], next: 0, end: 0, room: FIRST }
    }

    fn at(&self, place: usize) -> (Key<W>, u64) {
        debug_assert!(place < self.end);
        // SAFETY: the last call wrote the pairs up to `end`.
        let (key, value) = W::parts(unsafe { self.pairs[place].assume_init_ref() });
        (Key::of(key), value)
    }

    fn pop_front(&mut self) -> Option<(Key<W>, u64)> {
        if self.next == self.end {
            return None;
        }
        let pair = self.at(self.next);
        self.next += 1;
        Some(pair)
    }

    fn pop_back(&mut self) -> Option<(Key<W>, u64)> {
        if self.next == self.end {
            return None;
        }
        let pair = self.at(self.end - 1);
        self.end -= 1;
        Some(pair)
    }
}

/// An iterator over pairs, ascending by key. It borrows the map, and goes from both ends.
///
/// # Panics
///
/// A call panics if an allocation of the library fails.
pub struct Iter<'a, W: Width> {
    map: &'a U64Map<W>,
    // the pairs that no batch has read
    start: End<W>,
    end: End<W>,
    is_over: bool,
    front: Batch<W>,
    // made where the iterator goes from the back, so that it takes half the bytes where it doesn't
    back: Option<Box<Batch<W>>>,
}

impl<'a, W: Width> Iter<'a, W> {
    pub(crate) fn new(map: &'a U64Map<W>, start: End<W>, end: End<W>) -> Iter<'a, W> {
        Iter { map, start, end, is_over: false, front: Batch::new(), back: None }
    }

    /// Reads the next batch from one end, which has returned all that it read.
    fn refill(&mut self, is_descending: bool) {
        if self.is_over {
            return;
        }
        let batch = match is_descending {
            true => self.back.get_or_insert_with(|| Box::new(Batch::new())),
            false => &mut self.front,
        };
        let (written, more) = self.map.batch(&self.start, &self.end, is_descending, &mut batch.pairs[..batch.room]);
        (batch.next, batch.end) = (0, written);
        batch.room = ROOM;
        self.is_over = !more;
        if more {
            let last = End::Excluded(batch.at(written - 1).0);
            if is_descending {
                self.end = last;
            } else {
                self.start = last;
            }
        }
    }

    /// Returns the next pair that was read from the back.
    fn pop_back(&mut self) -> Option<(Key<W>, u64)> {
        self.back.as_mut()?.pop_front()
    }
}

impl<W: Width> Iterator for Iter<'_, W> {
    type Item = (Key<W>, u64);

    fn next(&mut self) -> Option<(Key<W>, u64)> {
        if let Some(pair) = self.front.pop_front() {
            return Some(pair);
        }
        self.refill(false);
        // what the other end has read is all that is left
        self.front.pop_front().or_else(|| self.back.as_mut()?.pop_back())
    }
}

impl<W: Width> DoubleEndedIterator for Iter<'_, W> {
    fn next_back(&mut self) -> Option<(Key<W>, u64)> {
        if let Some(pair) = self.pop_back() {
            return Some(pair);
        }
        self.refill(true);
        self.pop_back().or_else(|| self.front.pop_back())
    }
}

impl<W: Width> FusedIterator for Iter<'_, W> {}

impl<W: Width> fmt::Debug for Iter<'_, W> {
    fn fmt(&self, f: &mut fmt::Formatter<'_>) -> fmt::Result {
        f.debug_struct("Iter").finish_non_exhaustive()
    }
}
