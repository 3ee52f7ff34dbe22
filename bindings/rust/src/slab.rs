//! Values at places, which a tree of the library holds.

/// The values of a map or of a table. Each is dropped once, by Rust.
pub(crate) struct Slab<T> {
    values: Vec<Option<T>>,
    free: Vec<usize>,
}

impl<T> Slab<T> {
    pub(crate) const fn new() -> Slab<T> {
        Slab { values: Vec::new(), free: Vec::new() }
    }

    /// Returns a place for a value, which [`fill`](Self::fill) then takes. There may be one more than there are values.
    pub(crate) fn free_place(&mut self) -> usize {
        if let Some(place) = self.free.last() {
            return *place;
        }
        self.values.push(None);
        self.free.push(self.values.len() - 1);
        self.values.len() - 1
    }

    /// Puts a value at the place that [`free_place`](Self::free_place) returned last.
    pub(crate) fn fill(&mut self, place: usize, value: T) {
        let taken = self.free.pop();
        debug_assert_eq!(taken, Some(place));
        self.values[place] = Some(value);
    }

    /// Reserves what [`take`](Self::take) pushes, so that a removal from the tree is not followed by an allocation.
    pub(crate) fn reserve_free(&mut self) {
        self.free.reserve(1);
    }

    /// Removes the value at a place and returns it.
    pub(crate) fn take(&mut self, place: usize) -> Option<T> {
        self.free.push(place);
        self.values[place].take()
    }

    pub(crate) fn get(&self, place: u64) -> &T {
        self.values[place as usize].as_ref().expect("a stored place has a value")
    }

    pub(crate) fn get_mut(&mut self, place: usize) -> &mut T {
        self.values[place].as_mut().expect("a stored place has a value")
    }

    /// Drops all values.
    pub(crate) fn clear(&mut self) {
        self.free.clear();
        self.values.clear();
    }
}
