//! Times tables of networks beside other structures. Prints for each structure nanoseconds of processor time for a
//! longest match of a random and of a covered address, and the bytes held for a route. Then it prints milliseconds for
//! an insertion and a removal of all routes, beside those of a `BTreeMap`.
//!
//! usage: `bindings/build`, then in this folder `cargo run --release -- [ROUNDS [ROUTES [WHO]]]`
//!
//! Each time is the least of ROUNDS, which is 5 unless it is given. ROUTES is a part of the name of a set of routes,
//! such as `IPv6` or `dense`; other sets are left out. WHO is a part of the name of a structure; other structures are
//! left out, and so are insertions and removals. The library is `bindings/lib/librart_c.a`, and `RART_LIB_DIR` names
//! another folder.
//!
//! The proved table is called through the functions of `bindings/c/rart.h`. The others are a hash map for each length,
//! a sorted array with links to the covering network, and a multibit trie. The program fails if two answers differ.
//! Bytes are those that glibc's `mallinfo2` counts as used.

mod addr;
mod hash_maps;
mod multibit;
mod ours;
mod routes;
mod sorted_array;

use crate::addr::{Addr, Table};
use crate::hash_maps::HashMaps;
use crate::multibit::Multibit;
use crate::ours::{Net, Ours};
use crate::routes::{Data, Random, Route};
use crate::sorted_array::SortedArray;
use std::collections::BTreeMap;
use std::hint::black_box;

/// The clock of `clock_gettime` that counts the time for which this thread has run on a processor.
const CPU_OF_THREAD: i32 = 3;

#[repr(C)]
struct Timespec {
    seconds: i64,
    nanos: i64,
}

#[repr(C)]
struct Mallinfo2 {
    before: [usize; 4],
    mapped: usize,
    between: [usize; 2],
    used: usize,
    after: [usize; 2],
}

unsafe extern "C" {
    fn clock_gettime(clock: i32, time: *mut Timespec) -> i32;
    fn mallinfo2() -> Mallinfo2;
}

fn cpu_nanos() -> u64 {
    let mut time = Timespec { seconds: 0, nanos: 0 };
    assert_eq!(unsafe { clock_gettime(CPU_OF_THREAD, &mut time) }, 0);
    (time.seconds * 1_000_000_000 + time.nanos) as u64
}

fn bytes_held() -> usize {
    let info = unsafe { mallinfo2() };
    info.used + info.mapped
}

/// Calls `run`, lowers `least` to its time if this is less, and returns its result.
fn timed<R>(least: &mut u64, run: impl FnOnce() -> R) -> R {
    let begun = cpu_nanos();
    let result = black_box(run());
    *least = (*least).min(cpu_nanos() - begun);
    result
}

/// A structure, the bytes that it holds, and the least time of all look-ups of random and of covered addresses.
struct Measured<A> {
    table: Box<dyn Table<A>>,
    bytes: usize,
    nanos: [u64; 2],
}

type Make<A> = fn(&[Route<A>]) -> Box<dyn Table<A>>;

fn make<A: Addr, T: Table<A> + 'static>(routes: &[Route<A>]) -> Box<dyn Table<A>> {
    Box::new(T::of(routes))
}

fn measured<A: Addr>(make: Make<A>, routes: &[Route<A>]) -> Measured<A> {
    let before = bytes_held();
    let table = make(routes);
    Measured { table, bytes: bytes_held() - before, nanos: [u64::MAX; 2] }
}

/// Compares the structures' answers, and times their look-ups, by turns.
fn time_look_ups<A: Addr>(structures: &mut [Measured<A>], probes: [&[A]; 2], rounds: usize) {
    for (which, addrs) in probes.into_iter().enumerate() {
        for addr in addrs {
            let mut answers = structures.iter().map(|it| it.table.longest(*addr));
            let first = answers.next();
            assert!(answers.all(|answer| Some(answer) == first), "the answers for {addr:x?} differ");
        }
        for _ in 0..rounds {
            let sums = structures.iter_mut().map(|it| timed(&mut it.nanos[which], || it.table.sum(addrs)));
            let sums: Vec<u64> = sums.collect();
            assert!(sums.iter().all(|sum| *sum == sums[0]), "the answers differ");
        }
    }
}

/// Returns the least time of an insertion and of a removal of all routes: of the proved table, then of a `BTreeMap`.
fn time_edits<A: Net>(routes: &[Route<A>], rounds: usize) -> [u64; 4] {
    let mut nanos = [u64::MAX; 4];
    let mut shuffled = routes.to_vec();
    Random(2).shuffle(&mut shuffled);
    for _ in 0..rounds {
        let mut ours = timed(&mut nanos[0], || Ours::of(routes));
        timed(&mut nanos[1], || {
            shuffled.iter().for_each(|(addr, len, target)| assert_eq!(ours.remove(*addr, *len), Some(*target)));
        });
        let mut map = timed(&mut nanos[2], || {
            let mut map = BTreeMap::new();
            routes.iter().for_each(|(addr, len, target)| _ = map.insert((*addr, *len), *target));
            map
        });
        timed(&mut nanos[3], || {
            shuffled.iter().for_each(|(addr, len, target)| assert_eq!(map.remove(&(*addr, *len)), Some(*target)));
        });
        assert!(ours.is_empty() && map.is_empty());
    }
    nanos
}

fn measure<A: Net>(data: Data<A>, rounds: usize, who: &str) {
    let all: [(&str, Make<A>); 4] = [
        ("ours", make::<A, Ours<A>>),
        ("hash maps", make::<A, HashMaps<A>>),
        ("sorted array", make::<A, SortedArray<A>>),
        ("multibit trie", make::<A, Multibit>),
    ];
    let wanted = all.iter().filter(|(name, _)| name.contains(who));
    let (names, mut structures): (Vec<&str>, Vec<Measured<A>>) =
        wanted.map(|(name, make)| (*name, measured(*make, &data.routes))).unzip();
    time_look_ups(&mut structures, [&data.random, &data.covered], rounds);
    for (name, it) in names.iter().zip(&structures) {
        let [random, covered] = it.nanos.map(|nanos| nanos as f64 / data.random.len() as f64);
        let bytes = it.bytes as f64 / data.routes.len() as f64;
        println!("{:24} {name:14} {random:7.1} {covered:7.1} ns {bytes:7.1} bytes a route", data.name);
    }
    drop(structures);
    if who.is_empty() {
        let millis = time_edits(&data.routes, rounds).map(|nanos| nanos as f64 / 1e6);
        let [insert, remove, std_insert, std_remove] = millis;
        println!("{:24} insertion of all, removal of all: {insert:.0}, {remove:.0} ms", data.name);
        println!("{:24} of a BTreeMap: {std_insert:.0}, {std_remove:.0} ms", data.name);
    }
}

fn main() {
    let mut args = std::env::args().skip(1);
    let rounds = args.next().map_or(5, |rounds| rounds.parse().expect("ROUNDS is a number"));
    assert!(rounds > 0, "ROUNDS is at least 1");
    let (which, who) = (args.next().unwrap_or_default(), args.next().unwrap_or_default());
    for count in [200_000, 1_000_000] {
        if format!("IPv4, {count}").contains(&which) {
            measure(routes::ipv4(count), rounds, &who);
        }
        if format!("IPv6, {count}").contains(&which) {
            measure(routes::ipv6(count), rounds, &who);
        }
    }
    if "IPv4, dense".contains(&which) {
        measure(routes::dense(), rounds, &who);
    }
}
