//! What document 02 asks of a listing in portions, seen from what each portion showed and from the plain list at its moment, without the plain
//! rules of a portion. That each is right for the tree at its moment is the session's to see.
use crate::library::{range_end, start};
use crate::script::Cursor;
use crate::session::{same, Difference};
use crate::stand_in::entry_bytes;
use plain::Entry;
use std::ops::{Bound, RangeBounds};

/// A portion as the library left it.
pub struct Shown {
    /// Entries written, more, nodes opened, ended.
    pub told: [u64; 4],
    /// The words of the next start.
    pub next: [u64; 3],
    pub out: Vec<u8>,
}

/// A listing from its beginning on.
pub struct Watch {
    range: (Bound<u64>, Bound<u64>),
    least: u32,
    /// What was shown so far, one portion behind another: the keys, and the bytes of the entries.
    keys: Vec<u64>,
    joined: Vec<u8>,
    /// What the tree held at the first moment, and whether it has held the same at every one since.
    first: Option<Vec<Entry>>,
    still: bool,
    /// The keys that were due at every moment.
    always: Vec<u64>,
}

impl Watch {
    pub fn new(c: &Cursor) -> Watch {
        let range = (range_end(start(c.from)), range_end(c.end));
        Watch { range, least: c.least, keys: vec![], joined: vec![], first: None, still: true, always: vec![] }
    }

    /// Nothing was changed between the portions.
    pub fn still(&self) -> bool {
        self.still
    }

    /// The keys that were due at every moment.
    pub fn always(&self) -> &[u64] {
        &self.always
    }

    /// What is live, in range and over the sift.
    fn due(&self, held: &[Entry]) -> Vec<Entry> {
        held.iter().filter(|e| e.place != 0 && self.range.contains(&e.key) && e.size >= self.least).copied().collect()
    }

    /// A portion of this size, asked for with these words while the tree held this. Whether the listing has ended.
    pub fn see(&mut self, held: &[Entry], size: usize, from: [u64; 3], shown: &Shown) -> Result<bool, Difference> {
        if size == 0 {
            same("a portion of size zero, entries shown", shown.told[0], 0)?;
            same("a portion of size zero, its start", shown.next, from)?;
        }
        self.show(&shown.out[..24 * shown.told[0] as usize])?;
        let due = self.due(held);
        self.moment(held, &due);
        let more = due.iter().any(|e| self.keys.last().is_none_or(|last| *last < e.key));
        let ended = size > 0 && !more;
        same("whether a listing has ended", shown.told[3], ended.into())?;
        if ended {
            self.end(&due)?;
        }
        Ok(ended)
    }

    /// No portion repeats a key: all that are shown ascend.
    fn show(&mut self, entries: &[u8]) -> Result<(), Difference> {
        for e in entries.chunks_exact(24) {
            let key = u64::from_le_bytes(e[..8].try_into().expect("eight bytes"));
            if let Some(last) = self.keys.last().filter(|last| **last >= key) {
                return Err(format!("a listing that shows {key} after {last}"));
            }
            self.keys.push(key);
        }
        self.joined.extend(entries);
        Ok(())
    }

    fn moment(&mut self, held: &[Entry], due: &[Entry]) {
        match &self.first {
            None => {
                self.first = Some(held.to_vec());
                self.always = due.iter().map(|e| e.key).collect();
            }
            Some(first) => {
                self.still &= first == held;
                self.always.retain(|k| due.binary_search_by_key(k, |e| e.key).is_ok());
            }
        }
    }

    /// With nothing changed the portions joined are the whole scan. What was due at every moment was shown; that it was not shown twice was seen
    /// before, since the keys shown ascend.
    fn end(&self, due: &[Entry]) -> Result<(), Difference> {
        if self.still && self.joined != entry_bytes(due) {
            return Err(format!("portions that joined are not the whole scan, but {:?}", self.keys));
        }
        match self.always.iter().find(|k| self.keys.binary_search(k).is_err()) {
            Some(k) => Err(format!("{k} was due at every moment, and not shown")),
            None => Ok(()),
        }
    }
}
