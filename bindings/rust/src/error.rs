//! Why an edit or a load failed.

use std::fmt;

/// Why an edit failed. The map is then unchanged.
#[derive(Clone, Copy, Debug, PartialEq, Eq, Hash)]
#[non_exhaustive]
pub enum Error {
    /// An allocation failed.
    Memory,
    /// The map holds as many pairs as it can count.
    Full,
    /// The key has more bytes than the map's keys have.
    KeyTooLong,
}

impl fmt::Display for Error {
    fn fmt(&self, f: &mut fmt::Formatter<'_>) -> fmt::Result {
        f.write_str(match self {
            Error::Memory => "out of memory",
            Error::Full => "the map is full",
            Error::KeyTooLong => "the key is too long",
        })
    }
}

impl std::error::Error for Error {}

/// Why an edit of a table of networks failed. The table is then unchanged.
#[derive(Clone, Copy, Debug, PartialEq, Eq, Hash)]
#[non_exhaustive]
pub enum NetError {
    /// An allocation failed.
    Memory,
    /// The table holds as many networks as it can count.
    Full,
    /// The network has more bits than an address.
    Length,
    /// A bit of the address after those of the network is set.
    HostBits,
}

impl fmt::Display for NetError {
    fn fmt(&self, f: &mut fmt::Formatter<'_>) -> fmt::Result {
        f.write_str(match self {
            NetError::Memory => "out of memory",
            NetError::Full => "the table is full",
            NetError::Length => "the network has more bits than its address",
            NetError::HostBits => "a bit of the address after those of the network is set",
        })
    }
}

impl std::error::Error for NetError {}

/// Why a load of sorted pairs made no map.
#[derive(Clone, Copy, Debug, PartialEq, Eq, Hash)]
#[non_exhaustive]
pub enum LoadError {
    /// An allocation failed.
    Memory,
    /// There are more pairs than a map can count.
    Full,
    /// A key has more bytes than the map's keys have.
    KeyTooLong {
        /// The place of the first such pair.
        at: usize,
    },
    /// A key is below the one before it.
    Unsorted {
        /// The place of the first such pair.
        at: usize,
    },
}

impl fmt::Display for LoadError {
    fn fmt(&self, f: &mut fmt::Formatter<'_>) -> fmt::Result {
        match self {
            LoadError::Memory => Error::Memory.fmt(f),
            LoadError::Full => Error::Full.fmt(f),
            LoadError::KeyTooLong { at } => write!(f, "the key of pair {at} is too long"),
            LoadError::Unsorted { at } => write!(f, "the key of pair {at} is below the one before it"),
        }
    }
}

impl std::error::Error for LoadError {}

/// Returns the error of a load with a status that is none of success, at a place.
pub(crate) fn load_error_of(status: u8, at: usize) -> LoadError {
    match status {
        crate::sys::KEY_TOO_LONG => LoadError::KeyTooLong { at },
        crate::sys::UNSORTED => LoadError::Unsorted { at },
        _ if error_of(status) == Error::Memory => LoadError::Memory,
        _ => LoadError::Full,
    }
}

/// Returns the error of a status that is none of success.
pub(crate) fn error_of(status: u8) -> Error {
    match status {
        crate::sys::NO_MEMORY => Error::Memory,
        crate::sys::FULL => Error::Full,
        crate::sys::KEY_TOO_LONG => Error::KeyTooLong,
        _ => unreachable!("the library returned the status {status}"),
    }
}

/// Returns the error of a table's status that is none of success.
pub(crate) fn net_error_of(status: u8) -> NetError {
    match status {
        crate::sys::BAD_LENGTH => NetError::Length,
        crate::sys::HOST_BITS => NetError::HostBits,
        _ if error_of(status) == Error::Memory => NetError::Memory,
        _ => NetError::Full,
    }
}
