//! Times calls of `U64Map` beside std's `BTreeMap<Vec<u8>, u64>`, and prints a table: nanoseconds of processor time,
//! the least of five runs. `cargo run --release --example speed` has 200,000 keys of each kind.

use rart_proved::{U64Map, W32};
use std::collections::BTreeMap;
use std::hint::black_box;
use std::ops::Bound;

const KEYS: usize = 200_000;
const RUNS: usize = 5;

/// SplitMix64.
struct Random(u64);

impl Random {
    fn next(&mut self) -> u64 {
        self.0 = self.0.wrapping_add(0x9E37_79B9_7F4A_7C15);
        let mixed = (self.0 ^ (self.0 >> 30)).wrapping_mul(0xBF58_476D_1CE4_E5B9);
        let mixed = (mixed ^ (mixed >> 27)).wrapping_mul(0x94D0_49BB_1331_11EB);
        mixed ^ (mixed >> 31)
    }
}

/// Returns the time for which this thread has run on a processor, which other processes don't add to.
fn processor_nanos() -> u64 {
    // the kernel adds the time up when a thread gives way
    std::thread::yield_now();
    let times = std::fs::read_to_string("/proc/thread-self/schedstat").expect("Linux has it");
    times.split_whitespace().next().and_then(|nanos| nanos.parse().ok()).expect("its first word is a number")
}

/// Returns the least time of a call in nanoseconds, where a run makes `calls`.
fn least(calls: usize, mut run: impl FnMut()) -> u64 {
    let times = (0..RUNS).map(|_| {
        let begun = processor_nanos();
        run();
        processor_nanos() - begun
    });
    times.min().unwrap_or(0) / calls as u64
}

/// Keys to store and keys to miss, both in random order.
fn keys_of(kind: &str, random: &mut Random) -> (Vec<Vec<u8>>, Vec<Vec<u8>>) {
    let folders = ["bin", "lib", "share", "local", "include", "src", "doc", "man"];
    let mut key = |at: usize| match kind {
        "random" => random.next().to_be_bytes().to_vec(),
        "dense" => (at as u64).to_be_bytes().to_vec(),
        _ => {
            let [a, b] = [random.next() as usize % 8, random.next() as usize % 8];
            format!("/usr/{}/{}/{:x}", folders[a], folders[b], random.next() >> 40).into_bytes()
        }
    };
    let mut stored: Vec<_> = (0..KEYS).map(&mut key).collect();
    let missed: Vec<_> = (KEYS..2 * KEYS).map(&mut key).collect();
    for at in (1..KEYS).rev() {
        stored.swap(at, random.next() as usize % (at + 1));
    }
    (stored, missed)
}

fn row(kind: &str, what: &str, ours: u64, std: Option<u64>) {
    let std = std.map_or(String::from("-"), |nanos| nanos.to_string());
    println!("| {kind} | {what} | {ours} | {std} |");
}

fn time_of(kind: &str) {
    let (stored, missed) = keys_of(kind, &mut Random(1));
    let pairs = || stored.iter().zip(0..);
    let map: U64Map = pairs().collect();
    let model: BTreeMap<&[u8], u64> = pairs().map(|(key, value)| (&key[..], value)).collect();
    let sorted: Vec<(&[u8], u64)> = model.iter().map(|(key, value)| (*key, *value)).collect();
    let model: BTreeMap<Vec<u8>, u64> = model.into_iter().map(|(key, value)| (key.to_vec(), value)).collect();
    let n = stored.len();
    let hit = least(n, || stored.iter().for_each(|key| _ = black_box(map.get(key))));
    row(kind, "get, stored", hit, Some(least(n, || stored.iter().for_each(|key| _ = black_box(model.get(key))))));
    let miss = least(n, || missed.iter().for_each(|key| _ = black_box(map.get(key))));
    row(kind, "get, absent", miss, Some(least(n, || missed.iter().for_each(|key| _ = black_box(model.get(key))))));
    let longest = least(n, || stored.iter().for_each(|key| _ = black_box(map.longest_prefix(key))));
    row(kind, "longest_prefix", longest, None);
    let walk = least(map.len(), || _ = black_box(map.iter().map(|(_, value)| value).fold(0, u64::wrapping_add)));
    let std_walk = least(map.len(), || _ = black_box(model.values().copied().fold(0, u64::wrapping_add)));
    row(kind, "iter, a pair", walk, Some(std_walk));
    let few = &missed[..n / 10];
    let ten = least(few.len(), || {
        for key in few {
            let bounds = (Bound::Included(&key[..]), Bound::Unbounded);
            black_box(map.range::<[u8]>(bounds).take(10).map(|(_, value)| value).fold(0, u64::wrapping_add));
        }
    });
    let std_ten = least(few.len(), || {
        for key in few {
            let bounds = (Bound::Included(&key[..]), Bound::Unbounded);
            black_box(model.range::<[u8], _>(bounds).take(10).map(|(_, value)| *value).fold(0, u64::wrapping_add));
        }
    });
    row(kind, "range of ten", ten, Some(std_ten));
    let insert = least(n, || drop(black_box(pairs().collect::<U64Map>())));
    let std_insert = least(n, || {
        drop(black_box(pairs().map(|(key, value)| (key.clone(), value)).collect::<BTreeMap<Vec<u8>, u64>>()));
    });
    row(kind, "insert and free", insert, Some(std_insert));
    let load = least(n, || drop(black_box(U64Map::<W32>::from_sorted(sorted.iter().copied()))));
    row(kind, "from_sorted and free", load, None);
}

fn main() {
    println!("| Keys | Call | `U64Map` | `BTreeMap` |\n|---|---|---|---|");
    for kind in ["random", "dense", "paths"] {
        time_of(kind);
    }
}
