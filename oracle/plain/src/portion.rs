//! Listing in portions: each is the scan upwards from a start. Its size is how many entries have room. Nothing is remembered between two of them:
//! who lists keeps the start of the next one.
use crate::look::scan;
use crate::tree::Node;
use crate::{Bound, Entry, Portion, Request};

/// After the last key shown; where nothing was shown, the start as it was. Not at the next number: there is none behind 2^64 - 1.
fn next_start(start: Bound, shown: &[Entry]) -> Bound {
    shown.last().map_or(start, |e| Bound::Excluded(e.key))
}

/// A listing ends with the first portion of size above zero that has no more due, so also with one that is just filled.
pub fn portion(start: Bound, end: Bound, least: u32, room: usize, root: &Node) -> Portion {
    let scanned = scan(&Request { start, end, down: false, least }, room, root);
    let next = next_start(start, &scanned.listed.written);
    let ended = room > 0 && !scanned.listed.more;
    Portion { scanned, next, ended }
}
