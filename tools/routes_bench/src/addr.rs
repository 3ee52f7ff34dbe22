//! Addresses, and what each table does.

use crate::routes::Route;
use std::fmt::Debug;
use std::hash::Hash;

/// An address: its bits are those of an integer.
pub trait Addr: Copy + Debug + Hash + Ord + 'static {
    /// The number of its octets.
    const OCTETS: u8;

    /// Returns the first `len` bits, followed by zeros.
    fn first(self, len: u8) -> Self;

    /// Returns the octet at `at`, or 0 after the last.
    fn octet(self, at: u8) -> usize;

    /// Returns the bits of `self`, of which those after the first `len` are replaced by those of `random`.
    fn fill(self, len: u8, random: u128) -> Self;
}

macro_rules! addr {
    ($int:ty) => {
        impl Addr for $int {
            const OCTETS: u8 = (<$int>::BITS / 8) as u8;

            fn first(self, len: u8) -> Self {
                self & !<$int>::MAX.checked_shr(len.into()).unwrap_or(0)
            }

            fn octet(self, at: u8) -> usize {
                if at < Self::OCTETS { (self >> (8 * (Self::OCTETS - 1 - at)) & 255) as usize } else { 0 }
            }

            fn fill(self, len: u8, random: u128) -> Self {
                self.first(len) | random as $int & <$int>::MAX.checked_shr(len.into()).unwrap_or(0)
            }
        }
    };
}

addr!(u32);
addr!(u128);

/// A table of networks.
pub trait Table<A: Addr> {
    /// Returns the table of distinct routes.
    fn of(routes: &[Route<A>]) -> Self
    where
        Self: Sized;

    /// Returns the length of the longest network that contains `addr`, and its target.
    fn longest(&self, addr: A) -> Option<(u8, u64)>;

    /// Looks up each address, and returns a number that depends on each answer.
    fn sum(&self, addrs: &[A]) -> u64 {
        addrs.iter().fold(0, |sum: u64, addr| match self.longest(*addr) {
            Some((len, target)) => sum.wrapping_mul(3).wrapping_add(target).wrapping_add(len.into()),
            None => sum,
        })
    }
}
