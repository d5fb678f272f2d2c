//! A node as a line, read and written by value.
use crate::refusal::done;
use crate::{raw, Entry, Refusal, FRAME_ENTRIES};
use core::ops::Deref;

/// An entry of an interior: what stands below one of its children.
#[derive(Clone, Copy, Debug, Default, PartialEq, Eq, Hash)]
pub struct Branch {
    /// The greatest key there.
    pub key: u64,
    /// The child's number in the preorder walk.
    pub child: u32,
    /// The number of live entries there.
    pub live: u32,
    /// The number of dead ones.
    pub dead: u32,
    /// The sum of the sizes of the live ones.
    pub size: u64,
}

/// At most 32 entries of a frame, by value; a slice of them.
#[derive(Clone, Copy, Debug)]
pub struct Rows<T> {
    all: [T; FRAME_ENTRIES],
    len: usize,
}

impl<T: Copy + Default> Rows<T> {
    fn new(len: usize, row: impl Fn(usize) -> T) -> Rows<T> {
        let mut all = [T::default(); FRAME_ENTRIES];
        for (i, place) in all.iter_mut().enumerate().take(len) {
            *place = row(i);
        }
        Rows { all, len }
    }
}

impl<T> Deref for Rows<T> {
    type Target = [T];

    fn deref(&self) -> &[T] {
        &self.all[..self.len]
    }
}

impl<T: PartialEq> PartialEq for Rows<T> {
    fn eq(&self, other: &Rows<T>) -> bool {
        **self == **other
    }
}

impl<T: Eq> Eq for Rows<T> {}

/// A frame that was read.
#[derive(Clone, Copy, Debug, PartialEq, Eq)]
#[allow(clippy::large_enum_variant)] // by value, since there is no heap
pub enum Frame {
    /// A leaf and its entries.
    Leaf(Rows<Entry>),
    /// An interior and its entries.
    Interior(Rows<Branch>),
}

impl Frame {
    /// Reads a line of hexadecimal without a line feed.
    ///
    /// # Errors
    /// [`Refusal::LineEmpty`] to [`Refusal::KeysNotAscending`], as they are listed.
    pub fn read(line: &[u8]) -> Result<Frame, Refusal> {
        let (mut head, mut keys, mut wide) = ([0; 2], [0; FRAME_ENTRIES], [0; FRAME_ENTRIES]);
        let (mut narrow, mut live, mut dead) = ([0; FRAME_ENTRIES], [0; FRAME_ENTRIES], [0; FRAME_ENTRIES]);
        let number = raw::read_frame(line, &mut head, &mut keys, &mut wide, &mut narrow, &mut live, &mut dead);
        let [kind, len] = head;
        let frame = if kind == 1 {
            Frame::Leaf(Rows::new(len as usize, |i| Entry { key: keys[i], place: wide[i], size: narrow[i] }))
        } else {
            Frame::Interior(Rows::new(len as usize, |i| Branch {
                key: keys[i],
                child: narrow[i],
                live: live[i],
                dead: dead[i],
                size: wide[i],
            }))
        };
        done(number, frame)
    }

    /// Writes the frame as a line, and hands back the part of the buffer that it occupies.
    ///
    /// # Errors
    /// [`Refusal::LineTooShort`].
    pub fn write<'l>(&self, line: &'l mut [u8]) -> Result<&'l [u8], Refusal> {
        match self {
            Frame::Leaf(entries) => write_leaf(entries, line),
            Frame::Interior(branches) => write_interior(branches, line),
        }
    }
}

/// One field of the first 32 rows, and zeros.
fn field<T, N: Copy + Default>(rows: &[T], of: impl Fn(&T) -> N) -> [N; FRAME_ENTRIES] {
    let mut all = [N::default(); FRAME_ENTRIES];
    for (place, row) in all.iter_mut().zip(rows) {
        *place = of(row);
    }
    all
}

/// Writes a leaf as a line, and hands back the part of the buffer that it occupies.
///
/// # Errors
/// [`Refusal::TooManyEntries`], [`Refusal::KeysNotAscending`], [`Refusal::LineTooShort`].
pub fn write_leaf<'l>(entries: &[Entry], line: &'l mut [u8]) -> Result<&'l [u8], Refusal> {
    let mut len = 0;
    let (keys, places, sizes) = (field(entries, |e| e.key), field(entries, |e| e.place), field(entries, |e| e.size));
    let number = raw::write_leaf(entries.len() as u64, &keys, &places, &sizes, line, &mut len);
    done(number, &line[..len as usize])
}

/// Writes an interior as a line, and hands back the part of the buffer that it occupies.
///
/// # Errors
/// [`Refusal::TooManyEntries`], [`Refusal::KeysNotAscending`], [`Refusal::LineTooShort`].
pub fn write_interior<'l>(branches: &[Branch], line: &'l mut [u8]) -> Result<&'l [u8], Refusal> {
    let mut len = 0;
    let (keys, children, sums) = (field(branches, |b| b.key), field(branches, |b| b.child), field(branches, |b| b.size));
    let (live, dead) = (field(branches, |b| b.live), field(branches, |b| b.dead));
    let number = raw::write_interior(branches.len() as u64, &keys, &children, &live, &dead, &sums, line, &mut len);
    done(number, &line[..len as usize])
}
