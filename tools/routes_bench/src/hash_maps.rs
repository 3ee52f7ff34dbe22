//! A hash map for each length, to compare with.

use crate::addr::{Addr, Table};
use crate::routes::Route;
use std::collections::{BTreeMap, HashMap};
use std::hash::{BuildHasherDefault, Hasher};

/// Targets by network: for each length a map from its networks, the longest length first.
pub struct HashMaps<A> {
    maps: Vec<(u8, HashMap<A, u64, BuildHasherDefault<Multiply>>)>,
}

/// Hashes an address by one product, whose halves it combines.
#[derive(Default)]
pub struct Multiply(u64);

fn folded(a: u64, b: u64) -> u64 {
    let product = u128::from(a) * u128::from(b);
    product as u64 ^ (product >> 64) as u64
}

impl Hasher for Multiply {
    fn write(&mut self, _: &[u8]) {
        unreachable!("an address is hashed as an integer");
    }

    fn write_u32(&mut self, addr: u32) {
        self.0 = folded(addr.into(), 0x9E37_79B9_7F4A_7C15);
    }

    fn write_u128(&mut self, addr: u128) {
        self.0 = folded((addr >> 64) as u64 ^ 0x9E37_79B9_7F4A_7C15, addr as u64 ^ 0xD1B5_4A32_D192_ED03);
    }

    fn finish(&self) -> u64 {
        self.0
    }
}

impl<A: Addr> Table<A> for HashMaps<A> {
    fn of(routes: &[Route<A>]) -> Self {
        let mut maps: BTreeMap<u8, HashMap<A, u64, _>> = BTreeMap::new();
        for &(addr, len, target) in routes {
            maps.entry(len).or_default().insert(addr, target);
        }
        maps.values_mut().for_each(HashMap::shrink_to_fit);
        HashMaps { maps: maps.into_iter().rev().collect() }
    }

    fn longest(&self, addr: A) -> Option<(u8, u64)> {
        self.maps.iter().find_map(|(len, map)| map.get(&addr.first(*len)).map(|target| (*len, *target)))
    }
}
