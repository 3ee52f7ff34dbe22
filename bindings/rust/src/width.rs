//! The widths of keys, each with its functions of the library.

use crate::sys;
use std::ffi::c_void;
use std::fmt::Debug;

/// How many bytes a key has at most: [`W32`] or [`W128`].
pub trait Width: sealed::Calls {
    /// The most bytes of a key.
    const MAX_KEY: usize;
}

/// Keys of at most 32 bytes. A pair takes about 133 bytes.
#[derive(Clone, Copy, Debug)]
pub enum W32 {}

/// Keys of at most 128 bytes. A pair takes about 340 bytes.
#[derive(Clone, Copy, Debug)]
pub enum W128 {}

/// A slice as C takes it.
pub(crate) type Bytes = (*const u8, usize);

/// A bound of a range as C takes it.
pub(crate) type BoundOf = (u8, *const u8, usize);

pub(crate) mod sealed {
    use super::{BoundOf, Bytes};
    use std::fmt::Debug;

    /// The functions of the library for one width. Each takes a handle that is zeroed or as the last call left it.
    pub trait Calls: Sized + Debug + 'static {
        type Handle;
        type Pair: Copy;
        type Inline: Copy + AsRef<[u8]> + AsMut<[u8]>;

        const EMPTY: Self::Handle;
        const ZEROS: Self::Inline;

        fn parts(pair: &Self::Pair) -> (&[u8], u64);

        /// Makes a pair. A key that is too long keeps its length, which the library refuses.
        fn pair(key: &[u8], value: u64) -> Self::Pair;

        unsafe fn insert(map: *mut Self::Handle, key: Bytes, value: u64, old: &mut u64) -> u8;
        unsafe fn try_insert(map: *mut Self::Handle, key: Bytes, value: u64, stored: &mut u64) -> u8;
        unsafe fn remove(map: *mut Self::Handle, key: Bytes, old: &mut u64) -> u8;
        unsafe fn remove_prefix(map: *mut Self::Handle, prefix: Bytes, removed: &mut usize) -> u8;
        unsafe fn clear(map: *mut Self::Handle);
        unsafe fn free(map: *mut Self::Handle);
        unsafe fn get(map: *mut Self::Handle, key: Bytes, value: &mut u64) -> bool;
        unsafe fn longest_prefix(map: *mut Self::Handle, probe: Bytes, len: &mut usize, value: &mut u64) -> bool;
        unsafe fn len(map: *mut Self::Handle) -> usize;
        unsafe fn intersect_count(map: *mut Self::Handle, other: *mut Self::Handle) -> usize;
        unsafe fn first(map: *mut Self::Handle, pair: *mut Self::Pair) -> bool;
        unsafe fn last(map: *mut Self::Handle, pair: *mut Self::Pair) -> bool;
        unsafe fn range(
            map: *mut Self::Handle,
            start: BoundOf,
            end: BoundOf,
            out: (*mut Self::Pair, usize),
            written: &mut usize,
            more: &mut bool,
        ) -> u8;
        unsafe fn range_descending(
            map: *mut Self::Handle,
            start: BoundOf,
            end: BoundOf,
            out: (*mut Self::Pair, usize),
            written: &mut usize,
            more: &mut bool,
        ) -> u8;
        unsafe fn matches(
            map: *mut Self::Handle,
            probe: Bytes,
            out: (*mut Self::Pair, usize),
            written: &mut usize,
            more: &mut bool,
        ) -> u8;
        unsafe fn load_sorted(map: *mut Self::Handle, pairs: &[Self::Pair], at: &mut usize) -> u8;
        unsafe fn stats(map: *mut Self::Handle, stats: &mut crate::sys::RartStats) -> u8;
    }
}

macro_rules! width {
    ($width:ident, $max:literal, $handle:ident, $pair:ident, $insert:ident, $try_insert:ident, $remove:ident,
     $remove_prefix:ident, $clear:ident, $free:ident, $get:ident, $longest_prefix:ident, $len:ident,
     $intersect_count:ident, $first:ident, $last:ident, $range:ident, $range_descending:ident, $matches:ident,
     $load_sorted:ident, $stats:ident) => {
        impl Width for $width {
            const MAX_KEY: usize = $max;
        }

        impl sealed::Calls for $width {
            type Handle = sys::$handle;
            type Pair = sys::$pair;
            type Inline = [u8; $max];

            const EMPTY: sys::$handle = sys::$handle { at: std::ptr::null_mut::<c_void>() };
            const ZEROS: [u8; $max] = [0; $max];

            fn parts(pair: &sys::$pair) -> (&[u8], u64) {
                (&pair.key[..pair.len], pair.value)
            }

            fn pair(key: &[u8], value: u64) -> sys::$pair {
                let mut inline = [0; $max];
                let kept = key.len().min($max);
                inline[..kept].copy_from_slice(&key[..kept]);
                sys::$pair { key: inline, len: key.len(), value }
            }

            unsafe fn insert(map: *mut sys::$handle, key: Bytes, value: u64, old: &mut u64) -> u8 {
                unsafe { sys::$insert(map, key.0, key.1, value, old) }
            }

            unsafe fn try_insert(map: *mut sys::$handle, key: Bytes, value: u64, stored: &mut u64) -> u8 {
                unsafe { sys::$try_insert(map, key.0, key.1, value, stored) }
            }

            unsafe fn remove(map: *mut sys::$handle, key: Bytes, old: &mut u64) -> u8 {
                unsafe { sys::$remove(map, key.0, key.1, old) }
            }

            unsafe fn remove_prefix(map: *mut sys::$handle, prefix: Bytes, removed: &mut usize) -> u8 {
                unsafe { sys::$remove_prefix(map, prefix.0, prefix.1, removed) }
            }

            unsafe fn clear(map: *mut sys::$handle) {
                unsafe { sys::$clear(map) }
            }

            unsafe fn free(map: *mut sys::$handle) {
                unsafe { sys::$free(map) }
            }

            unsafe fn get(map: *mut sys::$handle, key: Bytes, value: &mut u64) -> bool {
                unsafe { sys::$get(map, key.0, key.1, value) }
            }

            unsafe fn longest_prefix(map: *mut sys::$handle, probe: Bytes, len: &mut usize, value: &mut u64) -> bool {
                unsafe { sys::$longest_prefix(map, probe.0, probe.1, len, value) }
            }

            unsafe fn len(map: *mut sys::$handle) -> usize {
                unsafe { sys::$len(map) }
            }

            unsafe fn intersect_count(map: *mut sys::$handle, other: *mut sys::$handle) -> usize {
                unsafe { sys::$intersect_count(map, other) }
            }

            unsafe fn first(map: *mut sys::$handle, pair: *mut sys::$pair) -> bool {
                unsafe { sys::$first(map, pair) }
            }

            unsafe fn last(map: *mut sys::$handle, pair: *mut sys::$pair) -> bool {
                unsafe { sys::$last(map, pair) }
            }

            unsafe fn range(
                map: *mut sys::$handle,
                start: BoundOf,
                end: BoundOf,
                out: (*mut sys::$pair, usize),
                written: &mut usize,
                more: &mut bool,
            ) -> u8 {
                unsafe { sys::$range(map, start.0, start.1, start.2, end.0, end.1, end.2, out.0, out.1, written, more) }
            }

            unsafe fn range_descending(
                map: *mut sys::$handle,
                start: BoundOf,
                end: BoundOf,
                out: (*mut sys::$pair, usize),
                written: &mut usize,
                more: &mut bool,
            ) -> u8 {
                unsafe {
                    sys::$range_descending(
                        map, start.0, start.1, start.2, end.0, end.1, end.2, out.0, out.1, written, more,
                    )
                }
            }

            unsafe fn matches(
                map: *mut sys::$handle,
                probe: Bytes,
                out: (*mut sys::$pair, usize),
                written: &mut usize,
                more: &mut bool,
            ) -> u8 {
                unsafe { sys::$matches(map, probe.0, probe.1, out.0, out.1, written, more) }
            }

            unsafe fn load_sorted(map: *mut sys::$handle, pairs: &[sys::$pair], at: &mut usize) -> u8 {
                unsafe { sys::$load_sorted(map, pairs.as_ptr(), pairs.len(), at) }
            }

            unsafe fn stats(map: *mut sys::$handle, stats: &mut sys::RartStats) -> u8 {
                unsafe { sys::$stats(map, stats) }
            }
        }
    };
}

width!(
    W32, 32, Rart32, Rart32Pair, rart32_insert, rart32_try_insert, rart32_remove, rart32_remove_prefix, rart32_clear,
    rart32_free, rart32_get, rart32_longest_prefix, rart32_len, rart32_intersect_count, rart32_first, rart32_last,
    rart32_range, rart32_range_descending, rart32_matches, rart32_load_sorted, rart32_stats
);

width!(
    W128, 128, Rart128, Rart128Pair, rart128_insert, rart128_try_insert, rart128_remove, rart128_remove_prefix,
    rart128_clear, rart128_free, rart128_get, rart128_longest_prefix, rart128_len, rart128_intersect_count,
    rart128_first, rart128_last, rart128_range, rart128_range_descending, rart128_matches, rart128_load_sorted,
    rart128_stats
);
