//! Ordered maps from short byte keys over a proved adaptive radix tree.
//!
//! [`Map`] has values of any type, [`U64Map`] has `u64`. Both have the names of std's [`BTreeMap`], and look-ups by
//! prefix: [`longest_prefix`](Map::longest_prefix), [`matches`](Map::matches) and [`prefix`](Map::prefix). Keys have
//! at most 32 bytes, or 128 in a map of width [`W128`]. [`NetTable4`] and [`NetTable6`] have values by network, and
//! find the longest network that contains an address.
//!
//! What each call of the library beneath does is proved, for every input: the header `rart.h` quotes the contracts.
//! This crate itself is tested.
//!
//! ```
//! use rart_proved::Map;
//!
//! let mut words = Map::new();
//! words.insert("cat", "one");
//! words.insert("catalog", "two");
//! assert_eq!(words.longest_prefix(b"catalogue"), Some((&b"catalog"[..], &"two")));
//! assert_eq!(words.prefix("cat").count(), 2);
//! ```
//!
//! Maps and tables are neither `Send` nor `Sync`: a look-up takes the tree out of its handle and puts it back, and
//! nothing is proved of a tree on another thread.
//!
//! [`BTreeMap`]: std::collections::BTreeMap

#![deny(missing_docs)]

mod address;
mod bounds;
mod entry;
mod error;
mod iter;
mod key;
mod map;
mod map_iter;
mod net_table;
mod slab;
#[allow(missing_docs)]
mod sys;
mod u64_map;
mod width;

pub use address::Address;
pub use entry::{Entry, OccupiedEntry, VacantEntry};
pub use error::{Error, LoadError, NetError};
pub use iter::Iter;
pub use key::Key;
pub use map::Map;
pub use map_iter::{IntoIter, MapIter};
pub use net_table::{NetTable, NetTable4, NetTable6};
pub use u64_map::{Stats, U64Map};
pub use width::{W32, W128, Width};
