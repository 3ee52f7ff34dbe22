//! A sorted array of networks with links, to compare with.

use crate::addr::{Addr, Table};
use crate::routes::Route;

const NONE: u32 = u32::MAX;

struct Entry<A> {
    addr: A,
    target: u64,
    /// The place of the longest other network that contains this one, or `NONE`.
    covering: u32,
    len: u8,
}

/// Targets by network, ascending by address, then by length.
pub struct SortedArray<A> {
    entries: Vec<Entry<A>>,
}

impl<A: Addr> SortedArray<A> {
    /// Returns the place of the longest network that contains `addr`, among those at `at` and the ones covering it.
    fn containing(&self, mut at: u32, addr: A) -> u32 {
        while at != NONE {
            let entry = &self.entries[at as usize];
            if addr.first(entry.len) == entry.addr {
                break;
            }
            at = entry.covering;
        }
        at
    }
}

impl<A: Addr> Table<A> for SortedArray<A> {
    fn of(routes: &[Route<A>]) -> Self {
        let mut routes = routes.to_vec();
        routes.sort_unstable();
        let mut table = SortedArray { entries: Vec::with_capacity(routes.len()) };
        let mut before = NONE;
        for (at, (addr, len, target)) in routes.into_iter().enumerate() {
            let covering = table.containing(before, addr);
            table.entries.push(Entry { addr, target, covering, len });
            before = at as u32;
        }
        table
    }

    fn longest(&self, addr: A) -> Option<(u8, u64)> {
        let after = self.entries.partition_point(|entry| entry.addr <= addr);
        let at = self.containing((after as u32).wrapping_sub(1), addr);
        self.entries.get(at as usize).map(|entry| (entry.len, entry.target))
    }
}
