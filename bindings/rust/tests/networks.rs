//! Random calls on tables of networks, beside a list that is searched from end to end. `RART_CALLS` is their number: a
//! million without it in release, else 100,000. `RART_SEED` is the seed of the first of ten rounds: 0 without it.

use rart_proved::{Address, NetError, NetTable, NetTable4, NetTable6};
use std::cell::Cell;
use std::fmt::Debug;
use std::net::{Ipv4Addr, Ipv6Addr};
use std::rc::Rc;

mod random;

use random::{Random, number};

/// What the test makes addresses from and compares them by: their bits, the first one on top of 128.
trait Bits: Address + PartialEq + Debug {
    fn of(bits: u128) -> Self;
    fn bits(self) -> u128;
}

impl Bits for Ipv4Addr {
    fn of(bits: u128) -> Ipv4Addr {
        Ipv4Addr::from((bits >> 96) as u32)
    }

    fn bits(self) -> u128 {
        u128::from(u32::from(self)) << 96
    }
}

impl Bits for Ipv6Addr {
    fn of(bits: u128) -> Ipv6Addr {
        Ipv6Addr::from(bits)
    }

    fn bits(self) -> u128 {
        u128::from(self)
    }
}

fn first_bits(bits: u128, len: u8) -> u128 {
    if len == 0 { 0 } else { bits >> (128 - u32::from(len)) << (128 - u32::from(len)) }
}

/// Networks and their values, in no order.
struct Model<A> {
    routes: Vec<(A, u8, u64)>,
}

impl<A: Bits> Model<A> {
    fn place(&self, addr: A, len: u8) -> Option<usize> {
        self.routes.iter().position(|(net, stored, _)| *net == addr && *stored == len)
    }

    fn get(&self, addr: A, len: u8) -> Option<u64> {
        self.place(addr, len).map(|place| self.routes[place].2)
    }

    fn insert(&mut self, addr: A, len: u8, value: u64) -> Option<u64> {
        let old = self.remove(addr, len);
        self.routes.push((addr, len, value));
        old
    }

    fn remove(&mut self, addr: A, len: u8) -> Option<u64> {
        self.place(addr, len).map(|place| self.routes.swap_remove(place).2)
    }

    fn longest_match(&self, addr: A) -> Option<(A, u8, u64)> {
        let contain = self.routes.iter().filter(|(net, len, _)| first_bits(addr.bits(), *len) == net.bits());
        contain.max_by_key(|(_, len, _)| *len).copied()
    }
}

/// Returns an address; most differ in few bits, so that networks contain each other.
fn address<A: Bits>(random: &mut Random) -> A {
    let mut bits = [0, u128::MAX, 0x0a10_0203 << 96, 0x2001_0db8_0001 << 80][random.below(4) as usize];
    for _ in 0..random.below(4) {
        bits ^= 1 << (127 - random.below(u64::from(A::BITS)));
    }
    A::of(bits)
}

fn network<A: Bits>(random: &mut Random) -> (A, u8) {
    let len = match random.below(4) {
        0 => 8 * random.below(u64::from(A::BITS) / 8 + 1),
        _ => random.below(u64::from(A::BITS) + 1),
    } as u8;
    (A::of(first_bits(address::<A>(random).bits(), len)), len)
}

/// Plays `calls` calls from a seed, and returns the most networks that the table had.
fn play<A: Bits>(seed: u64, calls: usize) -> usize {
    let mut random = Random(seed);
    let mut table = NetTable::<A, u64>::new();
    let mut model = Model { routes: Vec::new() };
    let mut most = 0;
    for call in 0..calls {
        let (mut net, mut len) = network::<A>(&mut random);
        // one of those that are stored
        if !model.routes.is_empty() && random.below(3) == 0 {
            (net, len, _) = model.routes[random.below(model.routes.len() as u64) as usize];
        }
        match random.below(100) {
            0..30 => {
                let value = random.next();
                assert_eq!(table.insert(net, len, value), model.insert(net, len, value), "call {call}: {net:?}/{len}");
            }
            30..50 => assert_eq!(table.remove(net, len), model.remove(net, len), "call {call}: {net:?}/{len}"),
            50..60 => {
                let wanted = model.get(net, len);
                assert_eq!(table.get(net, len).copied(), wanted, "call {call}: {net:?}/{len}");
                assert_eq!(table.contains(net, len), wanted.is_some());
                assert_eq!(table.len(), model.routes.len());
            }
            60..90 => {
                let addr = if random.below(2) == 0 { net } else { address(&mut random) };
                let found = table.longest_match(addr).map(|(net, len, value)| (net, len, *value));
                assert_eq!(found, model.longest_match(addr), "call {call}: {addr:?}");
            }
            90..93 => {
                if let Some(value) = table.get_mut(net, len) {
                    *value ^= 1;
                    let place = model.place(net, len).expect("the model has it");
                    model.routes[place].2 ^= 1;
                }
            }
            93 if random.below(10) == 0 => {
                table.clear();
                model.routes.clear();
                assert!(table.is_empty());
            }
            _ => {
                let long = A::BITS + 1 + random.below(u64::from(u8::MAX - A::BITS)) as u8;
                assert_eq!(table.try_insert(net, long, 7), Err((NetError::Length, 7)));
                assert!(!table.contains(net, long) && table.remove(net, long).is_none());
                if len < A::BITS {
                    let set = A::of(net.bits() | 1 << (128 - A::BITS as u32));
                    assert_eq!(table.try_insert(set, len, 7), Err((NetError::HostBits, 7)));
                    assert!(!table.contains(set, len) && table.remove(set, len).is_none());
                }
            }
        }
        most = most.max(model.routes.len());
    }
    for (net, len, value) in &model.routes {
        assert_eq!(table.get(*net, *len), Some(value));
    }
    assert_eq!(table.len(), model.routes.len());
    most
}

#[test]
fn random_calls() {
    let calls = number("RART_CALLS", if cfg!(debug_assertions) { 100_000 } else { 1_000_000 });
    let first = number("RART_SEED", 0) as u64;
    let rounds = 10;
    let calls_of_round = calls / rounds as usize;
    let round = |seed| match seed % 2 {
        0 => play::<Ipv4Addr>(seed, calls_of_round),
        _ => play::<Ipv6Addr>(seed, calls_of_round),
    };
    let most = (first..first + rounds).map(round).max();
    println!("{calls} calls, at most {} networks", most.unwrap_or(0));
}

/// Counts its drops.
struct Counted(Rc<Cell<usize>>);

impl Drop for Counted {
    fn drop(&mut self) {
        self.0.set(self.0.get() + 1);
    }
}

#[test]
fn values_are_dropped_once() {
    let drops = Rc::new(Cell::new(0));
    let mut random = Random(1);
    let mut table = NetTable6::new();
    let mut made = 0;
    for _ in 0..20_000 {
        let (net, len) = network::<Ipv6Addr>(&mut random);
        match random.below(10) {
            0..6 => {
                made += 1;
                drop(table.insert(net, len, Counted(drops.clone())));
            }
            6..9 => drop(table.remove(net, len)),
            _ => assert_eq!(made - drops.get(), table.len()),
        }
    }
    assert!(!table.is_empty());
    table.clear();
    assert_eq!(drops.get(), made);
    drop(table.insert(Ipv6Addr::UNSPECIFIED, 0, Counted(drops.clone())));
    drop(table.try_insert(Ipv6Addr::LOCALHOST, 1, Counted(drops.clone())));
    assert_eq!(drops.get(), made + 1);
    drop(table);
    assert_eq!(drops.get(), made + 2);
}

#[test]
fn tables_of_both_versions() {
    let ten = Ipv4Addr::new(10, 0, 0, 0);
    let mut table: NetTable4<&str> = [(Ipv4Addr::UNSPECIFIED, 0, "default"), (ten, 8, "ten")].into_iter().collect();
    table.extend([(ten, 8, "core")]);
    assert_eq!((table.len(), table.get(ten, 8)), (2, Some(&"core")));
    assert_eq!(table.longest_match(Ipv4Addr::new(11, 0, 0, 1)), Some((Ipv4Addr::UNSPECIFIED, 0, &"default")));
    assert_eq!(table.try_remove(ten, 8), Ok(Some("core")));
    assert_eq!(table.try_remove(ten, 33), Ok(None));
    let mut wide = NetTable6::default();
    wide.insert(Ipv6Addr::LOCALHOST, 128, String::from("me"));
    if let Some(name) = wide.get_mut(Ipv6Addr::LOCALHOST, 128) {
        name.push('!');
    }
    assert_eq!(wide.longest_match(Ipv6Addr::LOCALHOST), Some((Ipv6Addr::LOCALHOST, 128, &String::from("me!"))));
    assert_eq!(wide.longest_match(Ipv6Addr::UNSPECIFIED), None);
}

#[test]
fn a_panic_keeps_the_table_whole() {
    let mut table = NetTable4::new();
    let ten = Ipv4Addr::new(10, 0, 0, 0);
    table.insert(ten, 8, String::from("one"));
    let outcome = std::panic::catch_unwind(std::panic::AssertUnwindSafe(|| table.insert(ten, 33, String::from("two"))));
    assert!(outcome.is_err());
    assert_eq!(table.insert(ten, 8, String::from("three")), Some(String::from("one")));
    assert_eq!(table.insert(ten, 9, String::from("four")), None);
    assert_eq!(table.get(ten, 8).map(String::as_str), Some("three"));
    assert_eq!(format!("{table:?}"), "NetTable { len: 2, .. }");
}
