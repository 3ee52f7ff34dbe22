//! The versions of addresses, each with its functions of the library.

use crate::sys;
use std::net::{Ipv4Addr, Ipv6Addr};

/// An address of a version that a table can have: [`Ipv4Addr`] or [`Ipv6Addr`].
pub trait Address: sealed::Calls {
    /// The number of an address's bits, and the most of a network.
    const BITS: u8;
}

pub(crate) mod sealed {
    use std::fmt::Debug;

    /// The functions of the library for one version. Each takes a handle that is zeroed or as the last call left it.
    pub trait Calls: Copy + Debug + 'static {
        type Handle;

        const EMPTY: Self::Handle;

        /// Returns the address with all but its first `len` bits cleared.
        fn masked(self, len: u8) -> Self;

        unsafe fn insert(table: *mut Self::Handle, addr: Self, len: u8, target: u64, old: &mut u64) -> u8;
        unsafe fn remove(table: *mut Self::Handle, addr: Self, len: u8, old: &mut u64) -> u8;
        unsafe fn free(table: *mut Self::Handle);
        unsafe fn get(table: *mut Self::Handle, addr: Self, len: u8, target: &mut u64) -> u8;
        unsafe fn longest_match(table: *mut Self::Handle, addr: Self, len: &mut u8, target: &mut u64) -> bool;
        unsafe fn len(table: *mut Self::Handle) -> usize;
    }
}

macro_rules! address {
    ($address:ident, $number:ident, $handle:ident, $insert:ident, $remove:ident, $free:ident, $get:ident,
     $longest_match:ident, $len:ident) => {
        impl Address for $address {
            const BITS: u8 = $number::BITS as u8;
        }

        impl sealed::Calls for $address {
            type Handle = sys::$handle;

            const EMPTY: sys::$handle = sys::$handle { at: std::ptr::null_mut() };

            fn masked(self, len: u8) -> $address {
                let after = $number::MAX.checked_shr(u32::from(len)).unwrap_or(0);
                $address::from_bits(self.to_bits() & !after)
            }

            unsafe fn insert(table: *mut sys::$handle, addr: $address, len: u8, target: u64, old: &mut u64) -> u8 {
                unsafe { sys::$insert(table, &addr.octets(), len, target, old) }
            }

            unsafe fn remove(table: *mut sys::$handle, addr: $address, len: u8, old: &mut u64) -> u8 {
                unsafe { sys::$remove(table, &addr.octets(), len, old) }
            }

            unsafe fn free(table: *mut sys::$handle) {
                unsafe { sys::$free(table) }
            }

            unsafe fn get(table: *mut sys::$handle, addr: $address, len: u8, target: &mut u64) -> u8 {
                unsafe { sys::$get(table, &addr.octets(), len, target) }
            }

            unsafe fn longest_match(
                table: *mut sys::$handle,
                addr: $address,
                len: &mut u8,
                target: &mut u64,
            ) -> bool {
                unsafe { sys::$longest_match(table, &addr.octets(), len, target) }
            }

            unsafe fn len(table: *mut sys::$handle) -> usize {
                unsafe { sys::$len(table) }
            }
        }
    };
}

address!(
    Ipv4Addr, u32, RartNet4, rart_net4_insert, rart_net4_remove, rart_net4_free, rart_net4_get,
    rart_net4_longest_match, rart_net4_len
);

address!(
    Ipv6Addr, u128, RartNet6, rart_net6_insert, rart_net6_remove, rart_net6_free, rart_net6_get,
    rart_net6_longest_match, rart_net6_len
);
