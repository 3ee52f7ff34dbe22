//! The proved table, through the functions of `bindings/c/rart.h`.

use crate::addr::{Addr, Table};
use crate::routes::Route;
use std::ffi::c_void;
use std::marker::PhantomData;
use std::ptr::null_mut;

/// A handle of `rart.h`. Null is an empty table.
#[repr(C)]
pub struct Handle {
    at: *mut c_void,
}

#[rustfmt::skip]
unsafe extern "C" {
    fn rart_net4_insert(table: *mut Handle, addr: *const [u8; 4], len: u8, target: u64, old: *mut u64) -> u8;
    fn rart_net4_remove(table: *mut Handle, addr: *const [u8; 4], len: u8, old: *mut u64) -> u8;
    fn rart_net4_longest_match(table: *mut Handle, addr: *const [u8; 4], len: *mut u8, target: *mut u64) -> bool;
    fn rart_net4_len(table: *mut Handle) -> usize;
    fn rart_net4_free(table: *mut Handle);
    fn rart_net6_insert(table: *mut Handle, addr: *const [u8; 16], len: u8, target: u64, old: *mut u64) -> u8;
    fn rart_net6_remove(table: *mut Handle, addr: *const [u8; 16], len: u8, old: *mut u64) -> u8;
    fn rart_net6_longest_match(table: *mut Handle, addr: *const [u8; 16], len: *mut u8, target: *mut u64) -> bool;
    fn rart_net6_len(table: *mut Handle) -> usize;
    fn rart_net6_free(table: *mut Handle);
}

/// The calls of one version. Each takes a handle that no other call uses.
pub trait Net: Addr {
    unsafe fn insert(table: *mut Handle, addr: Self, len: u8, target: u64) -> bool;
    unsafe fn remove(table: *mut Handle, addr: Self, len: u8) -> Option<u64>;
    unsafe fn longest_match(table: *mut Handle, addr: Self) -> Option<(u8, u64)>;
    unsafe fn len(table: *mut Handle) -> usize;
    unsafe fn free(table: *mut Handle);
}

macro_rules! net {
    ($int:ty, $insert:ident, $remove:ident, $longest_match:ident, $len:ident, $free:ident) => {
        impl Net for $int {
            unsafe fn insert(table: *mut Handle, addr: Self, len: u8, target: u64) -> bool {
                let mut old = 0;
                unsafe { $insert(table, &addr.to_be_bytes(), len, target, &mut old) == 0 }
            }

            unsafe fn remove(table: *mut Handle, addr: Self, len: u8) -> Option<u64> {
                let mut old = 0;
                unsafe { ($remove(table, &addr.to_be_bytes(), len, &mut old) == 0).then_some(old) }
            }

            unsafe fn longest_match(table: *mut Handle, addr: Self) -> Option<(u8, u64)> {
                let (mut len, mut target) = (0, 0);
                let found = unsafe { $longest_match(table, &addr.to_be_bytes(), &mut len, &mut target) };
                found.then_some((len, target))
            }

            unsafe fn len(table: *mut Handle) -> usize {
                unsafe { $len(table) }
            }

            unsafe fn free(table: *mut Handle) {
                unsafe { $free(table) }
            }
        }
    };
}

net!(u32, rart_net4_insert, rart_net4_remove, rart_net4_longest_match, rart_net4_len, rart_net4_free);
net!(u128, rart_net6_insert, rart_net6_remove, rart_net6_longest_match, rart_net6_len, rart_net6_free);

/// Targets by network. A call takes the handle by its address and writes it, so it lies in a box of its own.
pub struct Ours<A: Net> {
    handle: *mut Handle,
    kind: PhantomData<A>,
}

impl<A: Net> Ours<A> {
    pub fn new() -> Self {
        Ours { handle: Box::into_raw(Box::new(Handle { at: null_mut() })), kind: PhantomData }
    }

    /// Inserts a new route.
    pub fn insert(&mut self, addr: A, len: u8, target: u64) {
        assert!(unsafe { A::insert(self.handle, addr, len, target) }, "the route is new, and there is memory");
    }

    /// Removes a route and returns its target.
    pub fn remove(&mut self, addr: A, len: u8) -> Option<u64> {
        unsafe { A::remove(self.handle, addr, len) }
    }

    /// Returns whether there is no route.
    pub fn is_empty(&self) -> bool {
        unsafe { A::len(self.handle) == 0 }
    }
}

impl<A: Net> Drop for Ours<A> {
    fn drop(&mut self) {
        unsafe {
            A::free(self.handle);
            drop(Box::from_raw(self.handle));
        }
    }
}

impl<A: Net> Table<A> for Ours<A> {
    fn of(routes: &[Route<A>]) -> Self {
        let mut table = Ours::new();
        routes.iter().for_each(|(addr, len, target)| table.insert(*addr, *len, *target));
        table
    }

    fn longest(&self, addr: A) -> Option<(u8, u64)> {
        unsafe { A::longest_match(self.handle, addr) }
    }
}
