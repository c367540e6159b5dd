//! A plain LRU: a hash map and a doubly linked list through its nodes. It keeps no books but the order, and
//! judges nothing.

use std::collections::HashMap;

/// The node that the list begins and ends with: next of it is the oldest, previous of it the newest.
const ENDS: usize = 0;

#[derive(Clone)]
struct Node {
    previous: usize,
    next: usize,
    holds: u32,
}

#[derive(Clone)]
pub struct Lru {
    nodes: Vec<Node>,
    by_address: HashMap<u64, usize>,
}

impl Lru {
    /// With these addresses, from the oldest to the newest.
    pub fn of(addresses: impl IntoIterator<Item = u64>) -> Lru {
        let mut lru = Lru { nodes: vec![Node { previous: ENDS, next: ENDS, holds: 0 }], by_address: HashMap::new() };
        for address in addresses {
            let node = lru.nodes.len();
            lru.nodes.push(Node { previous: node, next: node, holds: 0 });
            lru.by_address.insert(address, node);
            lru.link_newest(node);
        }
        lru
    }

    fn unlink(&mut self, node: usize) {
        let Node { previous, next, .. } = self.nodes[node];
        self.nodes[previous].next = next;
        self.nodes[next].previous = previous;
    }

    fn link_newest(&mut self, node: usize) {
        let newest = self.nodes[ENDS].previous;
        self.nodes[node].previous = newest;
        self.nodes[node].next = ENDS;
        self.nodes[newest].next = node;
        self.nodes[ENDS].previous = node;
    }

    /// Whether the address is there; it leaves the list while it is held.
    pub fn protect(&mut self, address: u64) -> bool {
        let Some(&node) = self.by_address.get(&address) else { return false };
        if self.nodes[node].holds == 0 {
            self.unlink(node);
        }
        self.nodes[node].holds += 1;
        true
    }

    /// Whether the address was held; after the last release it is the newest.
    pub fn release(&mut self, address: u64) -> bool {
        let Some(&node) = self.by_address.get(&address) else { return false };
        if self.nodes[node].holds == 0 {
            return false;
        }
        self.nodes[node].holds -= 1;
        if self.nodes[node].holds == 0 {
            self.link_newest(node);
        }
        true
    }

    /// The addresses that are not held, from the oldest to the newest.
    pub fn listed(&self) -> Vec<u64> {
        let address_of: HashMap<usize, u64> = self.by_address.iter().map(|(address, node)| (*node, *address)).collect();
        let mut listed = Vec::new();
        let mut node = self.nodes[ENDS].next;
        while node != ENDS {
            listed.push(address_of[&node]);
            node = self.nodes[node].next;
        }
        listed
    }
}
