//! Routes as in a real table, and addresses to look up.

use crate::addr::Addr;
use std::collections::HashSet;

/// An address, a length and a target.
pub type Route<A> = (A, u8, u64);

/// Routes in random order, and addresses in random order.
pub struct Data<A> {
    pub name: String,
    pub routes: Vec<Route<A>>,
    /// Random addresses: of all IPv4, and of the blocks from which IPv6 networks are taken.
    pub random: Vec<A>,
    /// Random addresses of random routes.
    pub covered: Vec<A>,
}

const PROBES: usize = 1_000_000;

/// How many of 100,000 routes have each length.
#[rustfmt::skip]
const LENGTHS_4: &[(u8, u64)] = &[
    (8, 1), (9, 1), (10, 3), (11, 10), (12, 30), (13, 60), (14, 120), (15, 200), (16, 1380), (17, 820), (18, 1400),
    (19, 2500), (20, 4400), (21, 5100), (22, 11000), (23, 10000), (24, 62975),
];
#[rustfmt::skip]
const LENGTHS_6: &[(u8, u64)] = &[
    (20, 5), (21, 5), (22, 5), (23, 5), (24, 30), (25, 5), (26, 10), (27, 15), (28, 150), (29, 2600), (30, 200),
    (31, 150), (32, 12000), (33, 1700), (34, 1500), (35, 700), (36, 6000), (37, 500), (38, 1100), (39, 500),
    (40, 10000), (41, 400), (42, 2600), (43, 600), (44, 11500), (45, 900), (46, 2700), (47, 1700), (48, 41000),
    (52, 20), (56, 700), (64, 700),
];
/// The first 12 bits of IPv6 networks.
const BLOCKS: [u128; 6] = [0x200, 0x240, 0x260, 0x280, 0x2a0, 0x2c0];

/// SplitMix64.
pub struct Random(pub u64);

impl Random {
    pub fn next(&mut self) -> u64 {
        self.0 = self.0.wrapping_add(0x9E37_79B9_7F4A_7C15);
        let mixed = (self.0 ^ (self.0 >> 30)).wrapping_mul(0xBF58_476D_1CE4_E5B9);
        let mixed = (mixed ^ (mixed >> 27)).wrapping_mul(0x94D0_49BB_1331_11EB);
        mixed ^ (mixed >> 31)
    }

    fn wide(&mut self) -> u128 {
        u128::from(self.next()) << 64 | u128::from(self.next())
    }

    fn below(&mut self, bound: usize) -> usize {
        (self.next() % bound as u64) as usize
    }

    fn length(&mut self, lengths: &[(u8, u64)]) -> u8 {
        let mut left = self.next() % lengths.iter().map(|(_, share)| share).sum::<u64>();
        let found = lengths.iter().find(|(_, share)| left.checked_sub(*share).map(|rest| left = rest).is_none());
        found.expect("left is less than the sum").0
    }

    pub fn shuffle<T>(&mut self, items: &mut [T]) {
        for at in (1..items.len()).rev() {
            items.swap(at, self.below(at + 1));
        }
    }
}

fn any_4(random: &mut Random) -> u32 {
    random.next() as u32
}

fn any_6(random: &mut Random) -> u128 {
    BLOCKS[random.below(BLOCKS.len())] << 116 | random.wide() >> 12
}

/// Returns distinct routes. Each second one on average lies inside an earlier, shorter one, if ten tries find such.
fn nested<A: Addr>(count: usize, lengths: &[(u8, u64)], any: fn(&mut Random) -> A) -> Vec<Route<A>> {
    let mut random = Random(count as u64);
    let mut seen = HashSet::new();
    let mut routes: Vec<Route<A>> = Vec::new();
    while routes.len() < count {
        let len = random.length(lengths);
        let tries = if routes.is_empty() || random.below(2) == 0 { 0 } else { 10 };
        let shorter = (0..tries).map(|_| routes[random.below(routes.len())]).find(|route| route.1 < len);
        let addr = match shorter {
            Some((addr, least, _)) => addr.fill(least, random.wide()),
            None => any(&mut random),
        };
        if seen.insert((addr.first(len), len)) {
            routes.push((addr.first(len), len, random.next()));
        }
    }
    routes
}

fn data<A: Addr>(name: String, mut routes: Vec<Route<A>>, any: fn(&mut Random) -> A) -> Data<A> {
    let mut random = Random(1);
    random.shuffle(&mut routes);
    let covered = (0..PROBES).map(|_| {
        let (addr, len, _) = routes[random.below(routes.len())];
        addr.fill(len, random.wide())
    });
    let covered = covered.collect();
    let random = (0..PROBES).map(|_| any(&mut random)).collect();
    Data { name, routes, random, covered }
}

pub fn ipv4(count: usize) -> Data<u32> {
    data(format!("IPv4, {count}"), nested(count, LENGTHS_4, any_4), any_4)
}

pub fn ipv6(count: usize) -> Data<u128> {
    data(format!("IPv6, {count}"), nested(count, LENGTHS_6, any_6), any_6)
}

/// All networks of 10.0.0.0/8 down to /24.
pub fn dense() -> Data<u32> {
    let nets = (8..=24).flat_map(|len: u8| (0..1 << (len - 8)).map(move |at: u32| (10 << 24 | at << (32 - len), len)));
    let routes: Vec<_> = nets.zip(0..).map(|((addr, len), target)| (addr, len, target)).collect();
    data(format!("IPv4, dense, {}", routes.len()), routes, any_4)
}
