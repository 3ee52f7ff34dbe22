//! Tables of networks.

use crate::address::Address;
use crate::error::{NetError, net_error_of};
use crate::slab::Slab;
use crate::sys;
use std::cell::UnsafeCell;
use std::fmt;
use std::net::{Ipv4Addr, Ipv6Addr};

/// A table from IPv4 networks to values of any type.
///
/// ```
/// use rart_proved::NetTable4;
/// use std::net::Ipv4Addr;
///
/// let mut routes = NetTable4::new();
/// routes.insert(Ipv4Addr::new(10, 0, 0, 0), 8, "core");
/// routes.insert(Ipv4Addr::new(10, 16, 0, 0), 12, "lyon");
/// let found = routes.longest_match(Ipv4Addr::new(10, 17, 2, 3));
/// assert_eq!(found, Some((Ipv4Addr::new(10, 16, 0, 0), 12, &"lyon")));
/// ```
pub type NetTable4<T> = NetTable<Ipv4Addr, T>;

/// A table from IPv6 networks to values of any type.
///
/// ```
/// use rart_proved::NetTable6;
/// use std::net::Ipv6Addr;
///
/// let mut routes = NetTable6::new();
/// routes.insert(Ipv6Addr::UNSPECIFIED, 0, "default");
/// assert_eq!(routes.longest_match(Ipv6Addr::LOCALHOST), Some((Ipv6Addr::UNSPECIFIED, 0, &"default")));
/// ```
pub type NetTable6<T> = NetTable<Ipv6Addr, T>;

/// A table from networks to values of any type: [`NetTable4`] or [`NetTable6`].
///
/// A network is the first `len` bits of an address, whose other bits must be zeros.
pub struct NetTable<A: Address, T> {
    // The library takes each table by `*mut`, and a look-up leaves the same table in its handle. One call at a time
    // uses it, since the type is not `Sync`.
    handle: UnsafeCell<A::Handle>,
    values: Slab<T>,
}

impl<A: Address, T> NetTable<A, T> {
    /// Creates an empty table. Allocates nothing.
    pub const fn new() -> NetTable<A, T> {
        NetTable { handle: UnsafeCell::new(A::EMPTY), values: Slab::new() }
    }

    /// Returns the number of networks.
    pub fn len(&self) -> usize {
        // SAFETY: the handle is zeroed or as the last call left it, and no other call runs. So in each call below.
        unsafe { A::len(self.handle.get()) }
    }

    /// Returns whether there is no network.
    pub fn is_empty(&self) -> bool {
        self.len() == 0
    }

    /// Inserts `value` at the network of the first `len` bits of `addr`, and returns the old value.
    ///
    /// # Panics
    ///
    /// If [`try_insert`](Self::try_insert) fails.
    pub fn insert(&mut self, addr: A, len: u8, value: T) -> Option<T> {
        self.try_insert(addr, len, value).unwrap_or_else(|(error, _)| panic!("{error}"))
    }

    /// Inserts `value` at the network of the first `len` bits of `addr`, and returns the old value.
    ///
    /// ```
    /// use rart_proved::{NetError, NetTable4};
    /// use std::net::Ipv4Addr;
    ///
    /// let mut routes = NetTable4::new();
    /// let refused = routes.try_insert(Ipv4Addr::new(10, 0, 0, 1), 8, "core");
    /// assert_eq!(refused, Err((NetError::HostBits, "core")));
    /// ```
    ///
    /// # Errors
    ///
    /// If `addr` and `len` are no network, an allocation fails or the table is full; with `value`.
    pub fn try_insert(&mut self, addr: A, len: u8, value: T) -> Result<Option<T>, (NetError, T)> {
        let place = self.values.free_place();
        let mut old = 0;
        match unsafe { A::insert(self.handle.get_mut(), addr, len, place as u64, &mut old) } {
            sys::DONE => {
                self.values.fill(place, value);
                Ok(None)
            }
            sys::REPLACED => {
                self.values.fill(place, value);
                Ok(self.values.take(old as usize))
            }
            status => Err((net_error_of(status), value)),
        }
    }

    fn place_of(&self, addr: A, len: u8) -> Option<u64> {
        let mut place = 0;
        let status = unsafe { A::get(self.handle.get(), addr, len, &mut place) };
        // no network is stored that is none
        (status == sys::DONE).then_some(place)
    }

    /// Returns a reference to the value of exactly the network of the first `len` bits of `addr`.
    ///
    /// The table can't change while the reference is used:
    ///
    /// ```compile_fail,E0502
    /// let mut table = rart_proved::NetTable4::new();
    /// let any = std::net::Ipv4Addr::UNSPECIFIED;
    /// table.insert(any, 0, "default");
    /// let value = table.get(any, 0);
    /// table.remove(any, 0);
    /// assert_eq!(value, Some(&"default"));
    /// ```
    pub fn get(&self, addr: A, len: u8) -> Option<&T> {
        Some(self.values.get(self.place_of(addr, len)?))
    }

    /// Returns a mutable reference to the value of exactly the network of the first `len` bits of `addr`.
    pub fn get_mut(&mut self, addr: A, len: u8) -> Option<&mut T> {
        let place = self.place_of(addr, len)?;
        Some(self.values.get_mut(place as usize))
    }

    /// Returns whether exactly the network of the first `len` bits of `addr` is stored.
    pub fn contains(&self, addr: A, len: u8) -> bool {
        self.place_of(addr, len).is_some()
    }

    /// Removes exactly the network of the first `len` bits of `addr`, and returns its value.
    ///
    /// # Panics
    ///
    /// If [`try_remove`](Self::try_remove) fails.
    pub fn remove(&mut self, addr: A, len: u8) -> Option<T> {
        self.try_remove(addr, len).unwrap_or_else(|error| panic!("{error}"))
    }

    /// Removes exactly the network of the first `len` bits of `addr`, and returns its value.
    ///
    /// # Errors
    ///
    /// [`NetError::Memory`] if a node of the tree must shrink and the allocation fails.
    pub fn try_remove(&mut self, addr: A, len: u8) -> Result<Option<T>, NetError> {
        self.values.reserve_free();
        let mut place = 0;
        match unsafe { A::remove(self.handle.get_mut(), addr, len, &mut place) } {
            sys::DONE => Ok(self.values.take(place as usize)),
            // no network is stored that is none
            sys::ABSENT | sys::BAD_LENGTH | sys::HOST_BITS => Ok(None),
            status => Err(net_error_of(status)),
        }
    }

    /// Removes all networks.
    pub fn clear(&mut self) {
        unsafe { A::free(self.handle.get_mut()) }
        self.values.clear();
    }

    /// Returns the longest network that contains `addr`, by its first address and the number of its bits, with a
    /// reference to its value.
    pub fn longest_match(&self, addr: A) -> Option<(A, u8, &T)> {
        let (mut len, mut place) = (0, 0);
        unsafe { A::longest_match(self.handle.get(), addr, &mut len, &mut place) }
            .then(|| (addr.masked(len), len, self.values.get(place)))
    }
}

impl<A: Address, T> Default for NetTable<A, T> {
    fn default() -> NetTable<A, T> {
        NetTable::new()
    }
}

impl<A: Address, T> Drop for NetTable<A, T> {
    fn drop(&mut self) {
        unsafe { A::free(self.handle.get_mut()) }
    }
}

impl<A: Address, T> Extend<(A, u8, T)> for NetTable<A, T> {
    /// # Panics
    ///
    /// If [`try_insert`](Self::try_insert) fails.
    fn extend<I: IntoIterator<Item = (A, u8, T)>>(&mut self, routes: I) {
        for (addr, len, value) in routes {
            self.insert(addr, len, value);
        }
    }
}

impl<A: Address, T> FromIterator<(A, u8, T)> for NetTable<A, T> {
    /// # Panics
    ///
    /// If [`try_insert`](Self::try_insert) fails.
    fn from_iter<I: IntoIterator<Item = (A, u8, T)>>(routes: I) -> NetTable<A, T> {
        let mut table = NetTable::new();
        table.extend(routes);
        table
    }
}

/// Prints the number of networks: the library has no walk of a table.
impl<A: Address, T> fmt::Debug for NetTable<A, T> {
    fn fmt(&self, f: &mut fmt::Formatter<'_>) -> fmt::Result {
        f.debug_struct("NetTable").field("len", &self.len()).finish_non_exhaustive()
    }
}
