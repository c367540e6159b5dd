//! Makes a run that shows a difference short.

use crate::message::{ADDRESS_BYTES, HEAD_BYTES};
use std::time::{Duration, Instant};

const LONGEST: Duration = Duration::from_secs(20);

/// Drops items, in ever smaller parts, while `shows` says that the rest still shows a difference.
pub fn shrink<T: Clone>(mut items: Vec<T>, shows: impl Fn(&[T]) -> bool) -> Vec<T> {
    let start = Instant::now();
    let mut part = items.len().div_ceil(2).max(1);
    loop {
        let mut dropped = false;
        let mut at = 0;
        while at < items.len() && start.elapsed() < LONGEST {
            let mut rest = items[..at].to_vec();
            rest.extend_from_slice(&items[(at + part).min(items.len())..]);
            if shows(&rest) {
                items = rest;
                dropped = true;
            } else {
                at += part;
            }
        }
        if start.elapsed() >= LONGEST || (part == 1 && !dropped) {
            return items;
        }
        if !dropped || part > items.len() {
            part = (part / 2).max(1);
        }
    }
}

/// Drops addresses, with the count that names them, and then single bytes.
pub fn shrink_message(bytes: Vec<u8>, shows: impl Fn(&[u8]) -> bool) -> Vec<u8> {
    let Some((head, fields)) = bytes.split_at_checked(HEAD_BYTES) else { return shrink(bytes, shows) };
    let (number, count) = head.split_at(HEAD_BYTES - 2);
    let count = u16::from_be_bytes([count[0], count[1]]);
    let addresses: Vec<&[u8]> = fields.chunks_exact(ADDRESS_BYTES).take_while(|field| field[0] == 3).collect();
    let rest = &fields[ADDRESS_BYTES * addresses.len()..];
    let with = |kept: &[&[u8]]| {
        let fewer = count.wrapping_sub((addresses.len() - kept.len()) as u16);
        [number, &fewer.to_be_bytes(), &kept.concat(), rest].concat()
    };
    let short = with(&shrink(addresses.clone(), |kept| shows(&with(kept))));
    shrink(short, shows)
}
