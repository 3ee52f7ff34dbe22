//! Random calls beside std's `BTreeMap`. `RART_CALLS` is their number: a million without it in release, else 100,000.
//! `RART_SEED` is the seed of the first of ten rounds: 0 without it.

use rart_proved::{Error, LoadError, Map, U64Map, W32, W128, Width};
use std::cell::Cell;
use std::collections::BTreeMap;
use std::ops::Bound;
use std::rc::Rc;

mod random;

use random::{Random, number};

impl Random {
    /// Returns a key of at most `longest` bytes: over few letters, so that keys share prefixes, or over the extreme
    /// bytes.
    fn key(&mut self, longest: u64) -> Vec<u8> {
        let len = self.below(longest + 1);
        match self.below(5) {
            0 => (0..len).map(|_| b'a' + self.below(3) as u8).collect(),
            1 => (0..len.min(2)).map(|_| self.next() as u8).collect(),
            2 => (0..len.min(7)).map(|_| b'a' + self.below(2) as u8).collect(),
            3 => (0..len.min(4)).map(|_| [0, 1, 127, 254, 255][self.below(5) as usize]).collect(),
            _ => (0..len.min(3)).map(|_| self.below(60) as u8).collect(),
        }
    }

    fn bound(&mut self, longest: u64) -> Bound<Vec<u8>> {
        let key = self.key(longest);
        match self.below(3) {
            0 => Bound::Unbounded,
            1 => Bound::Included(key),
            _ => Bound::Excluded(key),
        }
    }
}

fn is_within(key: &[u8], start: &Bound<Vec<u8>>, end: &Bound<Vec<u8>>) -> bool {
    let from = match start {
        Bound::Unbounded => true,
        Bound::Included(start) => key >= &start[..],
        Bound::Excluded(start) => key > &start[..],
    };
    from && match end {
        Bound::Unbounded => true,
        Bound::Included(end) => key <= &end[..],
        Bound::Excluded(end) => key < &end[..],
    }
}

type Pairs = Vec<(Vec<u8>, u64)>;

/// Plays `calls` calls from a seed, and returns the most pairs that the map had.
fn play<W: Width>(seed: u64, calls: usize) -> usize {
    let longest = W::MAX_KEY as u64;
    let mut random = Random(seed);
    let mut map: U64Map<W> = U64Map::new();
    let mut model = BTreeMap::<Vec<u8>, u64>::new();
    let mut most = 0;
    for call in 0..calls {
        let key = random.key(longest);
        match random.below(100) {
            0..40 => {
                let value = random.next();
                assert_eq!(map.insert(&key, value), model.insert(key, value));
            }
            40..45 => {
                let value = random.next();
                let stored = model.get(&key).copied();
                assert_eq!(map.insert_new(&key, value), Ok(stored));
                model.entry(key).or_insert(value);
            }
            45..60 => {
                let near = model.range(key.clone()..).next().map(|(key, _)| key.clone());
                let key = if random.below(2) == 0 { near.unwrap_or(key) } else { key };
                assert_eq!(map.remove(&key), model.remove(&key));
            }
            60..70 => assert_eq!(map.get(&key), model.get(&key).copied()),
            70..78 => {
                let probe = random.key(longest + 8);
                let mut matches = (0..=probe.len()).filter_map(|len| Some((&probe[..len], *model.get(&probe[..len])?)));
                if random.below(2) == 0 {
                    assert!(map.matches(&probe).eq(matches), "call {call}: {probe:?}");
                } else {
                    assert_eq!(map.longest_prefix(&probe), matches.next_back(), "call {call}: {probe:?}");
                }
            }
            78..86 => {
                let limit = random.below(90) as usize;
                let prefix = &key[..key.len().min(random.below(4) as usize)];
                let found: Pairs = map.prefix(prefix).take(limit).map(|(key, value)| (key.to_vec(), value)).collect();
                let in_model = model.range(prefix.to_vec()..).take_while(|(key, _)| key.starts_with(prefix));
                let wanted: Pairs = in_model.take(limit).map(|(key, value)| (key.clone(), *value)).collect();
                assert_eq!(found, wanted, "call {call}: {prefix:?}");
            }
            86..93 => {
                let (start, end) = (random.bound(longest + 4), random.bound(longest + 4));
                let limit = random.below(90) as usize;
                let bounds = (start.as_ref().map(|key| &key[..]), end.as_ref().map(|key| &key[..]));
                let mut pairs = map.range::<[u8]>(bounds);
                let mut left: std::collections::VecDeque<(Vec<u8>, u64)> = model
                    .iter()
                    .filter(|(key, _)| is_within(key, &start, &end))
                    .map(|(key, value)| (key.clone(), *value))
                    .collect();
                for _ in 0..limit {
                    let is_front = random.below(3) > 0;
                    let found = if is_front { pairs.next() } else { pairs.next_back() };
                    let wanted = if is_front { left.pop_front() } else { left.pop_back() };
                    let found = found.map(|(key, value)| (key.to_vec(), value));
                    assert_eq!(found, wanted, "call {call}: {start:?} {end:?}");
                }
            }
            93..96 => {
                assert_eq!(map.len(), model.len());
                let first = map.first_key_value().map(|(key, value)| (key.to_vec(), value));
                assert_eq!(first, model.first_key_value().map(|(key, value)| (key.clone(), *value)));
                let last = map.last_key_value().map(|(key, value)| (key.to_vec(), value));
                assert_eq!(last, model.last_key_value().map(|(key, value)| (key.clone(), *value)));
            }
            96 if random.below(9) == 0 => {
                let before = model.len();
                model.retain(|stored, _| !stored.starts_with(&key));
                assert_eq!(map.remove_prefix(&key), Ok(before - model.len()));
            }
            97 => {
                let few = model.iter().filter(|_| random.below(9) == 0);
                let other: U64Map<W> = few.map(|(key, value)| (key, *value)).collect();
                if random.below(50) == 0 {
                    assert_eq!(map.intersect_count(&other), other.len());
                }
            }
            98 if random.below(400) == 0 => {
                assert!(map.iter().map(|(key, value)| (key.to_vec(), value)).eq(model.clone()));
                assert_eq!(map.clone(), map);
                let mut pairs: Pairs = model.clone().into_iter().collect();
                if pairs.len() > 1 {
                    let at = random.below(pairs.len() as u64 - 1) as usize;
                    pairs.swap(at, at + 1);
                    let refused = U64Map::<W>::from_sorted(pairs);
                    assert_eq!(refused, Err(LoadError::Unsorted { at: at + 1 }));
                }
                map.clear();
                model.clear();
            }
            _ => {
                let long = vec![b'a'; W::MAX_KEY + 1 + random.below(9) as usize];
                assert_eq!(map.try_insert(&long, 1), Err(Error::KeyTooLong));
                let refused = U64Map::<W>::from_sorted([(&[][..], 1), (&long[..], 2)]);
                assert_eq!(refused, Err(LoadError::KeyTooLong { at: 1 }));
                assert_eq!(map.get(&long), None);
                assert_eq!(map.remove(&long), None);
            }
        }
        most = most.max(model.len());
    }
    assert!(map.iter().map(|(key, value)| (key.to_vec(), value)).eq(model));
    most
}

#[test]
fn random_calls() {
    let calls = number("RART_CALLS", if cfg!(debug_assertions) { 100_000 } else { 1_000_000 });
    let first = number("RART_SEED", 0) as u64;
    let rounds = 10;
    let calls_of_round = calls / rounds as usize;
    let round = |seed| match seed % 2 {
        0 => play::<W32>(seed, calls_of_round),
        _ => play::<W128>(seed, calls_of_round),
    };
    let most = (first..first + rounds).map(round).max();
    println!("{calls} calls, at most {} pairs", most.unwrap_or(0));
}

/// Counts its drops.
#[derive(Clone)]
struct Counted(Rc<Cell<usize>>);

impl Drop for Counted {
    fn drop(&mut self) {
        self.0.set(self.0.get() + 1);
    }
}

#[test]
fn values_are_dropped_once() {
    let drops = Rc::new(Cell::new(0));
    let mut random = Random(1);
    let mut map = Map::new();
    let mut made = 0;
    for _ in 0..20_000 {
        let key = random.key(6);
        match random.below(10) {
            0..6 => {
                made += 1;
                drop(map.insert(key, Counted(drops.clone())));
            }
            6..9 => drop(map.remove(key)),
            _ => assert_eq!(made - drops.get(), map.len()),
        }
    }
    let len = map.len();
    drop(map.pop_first());
    drop(map.pop_last());
    assert_eq!(made - drops.get(), len - 2);
    let mut pairs = map.into_iter();
    drop(pairs.next());
    drop(pairs.next_back());
    assert_eq!(pairs.len(), len - 4);
    drop(pairs);
    assert_eq!(drops.get(), made);
}

#[test]
fn a_panic_keeps_the_map_whole() {
    let mut map = Map::new();
    map.insert("a", String::from("one"));
    let long = [b'x'; 33];
    let outcome = std::panic::catch_unwind(std::panic::AssertUnwindSafe(|| map.insert(long, String::from("two"))));
    assert!(outcome.is_err());
    let made = std::panic::catch_unwind(std::panic::AssertUnwindSafe(|| {
        map.entry("b").or_insert_with(|| panic!("not made"));
    }));
    assert!(made.is_err());
    assert_eq!(map.try_insert(long, String::from("three")), Err((Error::KeyTooLong, String::from("three"))));
    assert_eq!(map.insert("b", String::from("four")), None);
    assert_eq!(map.values().map(String::as_str).collect::<Vec<_>>(), ["one", "four"]);
}

#[test]
fn entries() {
    let mut counts = Map::new();
    for word in ["cat", "dog", "cat", "cow", "dog", "cat"] {
        counts.entry(word).and_modify(|count| *count += 1).or_insert(1);
    }
    assert_eq!(format!("{counts:?}"), r#"{b"cat": 3, b"cow": 1, b"dog": 2}"#);
    if let rart_proved::Entry::Occupied(entry) = counts.entry("cow") {
        assert_eq!(entry.key(), b"cow");
        assert_eq!(entry.remove(), 1);
    }
    assert!(!counts.contains_key("cow"));
}

#[test]
fn reads_while_iterating() {
    let map: U64Map = [("a", 1), ("b", 2)].into_iter().collect();
    let sum: u64 = map.iter().map(|(key, value)| value + map.get(key).unwrap_or(0)).sum();
    assert_eq!(sum, 6);
    assert_eq!(map.intersect_count(&map), 2);
}
