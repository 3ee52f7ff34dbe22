//! A plain multibit trie with a stride of one octet, to compare with.

use crate::addr::{Addr, Table};
use crate::routes::Route;

/// The codes of the first 0 to 7 bits of each byte, as a bitset. The code of some bits is a one, followed by them.
static BEGINNINGS: [[u64; 4]; 256] = {
    let mut sets = [[0; 4]; 256];
    let mut byte = 0;
    while byte < 256 {
        let mut bits = 0;
        while bits < 8 {
            let code = 1 << bits | byte >> (8 - bits);
            sets[byte][code / 64] |= 1 << (code % 64);
            bits += 1;
        }
        byte += 1;
    }
    sets
};

/// The networks with the same whole octets: the targets by the code of their other bits, packed, and the nodes of the
/// networks with one octet more, by this octet, packed.
#[derive(Default)]
struct Node {
    codes: [u64; 4],
    octets: [u64; 4],
    targets: Vec<u64>,
    children: Vec<Node>,
}

/// Targets by network.
#[derive(Default)]
pub struct Multibit {
    root: Node,
}

fn has(set: &[u64; 4], at: usize) -> bool {
    set[at / 64] >> (at % 64) & 1 == 1
}

/// Returns how many members of the set are less than `at`.
fn rank(set: &[u64; 4], at: usize) -> usize {
    let whole: u32 = set[..at / 64].iter().map(|word| word.count_ones()).sum();
    let below = set[at / 64] & ((1 << (at % 64)) - 1);
    (whole + below.count_ones()) as usize
}

/// Inserts an item at its rank, and reserves no more than it needs.
fn insert_at<T>(items: &mut Vec<T>, set: &mut [u64; 4], at: usize, item: T) {
    items.reserve_exact(1);
    items.insert(rank(set, at), item);
    set[at / 64] |= 1 << (at % 64);
}

/// Returns the code of the `len % 8` bits of the octet at `len / 8`.
fn code_of<A: Addr>(addr: A, len: u8) -> usize {
    1 << (len % 8) | addr.octet(len / 8) >> (8 - len % 8)
}

impl Node {
    fn child(&self, octet: usize) -> Option<&Node> {
        has(&self.octets, octet).then(|| &self.children[rank(&self.octets, octet)])
    }

    fn child_or_new(&mut self, octet: usize) -> &mut Node {
        if !has(&self.octets, octet) {
            insert_at(&mut self.children, &mut self.octets, octet, Node::default());
        }
        &mut self.children[rank(&self.octets, octet)]
    }

    /// Returns the longest code among those of a byte's beginnings.
    fn longest(&self, byte: usize) -> Option<usize> {
        let beginnings = &BEGINNINGS[byte];
        (0..4).rev().find_map(|word| {
            let both = self.codes[word] & beginnings[word];
            (both != 0).then(|| 64 * word + both.ilog2() as usize)
        })
    }
}

impl<A: Addr> Table<A> for Multibit {
    fn of(routes: &[Route<A>]) -> Self {
        let mut root = Node::default();
        for &(addr, len, target) in routes {
            let node = (0..len / 8).fold(&mut root, |node, at| node.child_or_new(addr.octet(at)));
            let code = code_of(addr, len);
            insert_at(&mut node.targets, &mut node.codes, code, target);
        }
        Multibit { root }
    }

    fn longest(&self, addr: A) -> Option<(u8, u64)> {
        let mut path = [&self.root; 17];
        let mut depth = 0;
        while depth < A::OCTETS {
            let Some(child) = path[usize::from(depth)].child(addr.octet(depth)) else {
                break;
            };
            depth += 1;
            path[usize::from(depth)] = child;
        }
        (0..=depth).rev().find_map(|depth| {
            let node = path[usize::from(depth)];
            let code = node.longest(addr.octet(depth))?;
            Some((8 * depth + code.ilog2() as u8, node.targets[rank(&node.codes, code)]))
        })
    }
}
