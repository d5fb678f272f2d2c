//! A listing in portions: what the caller keeps between them, and the entries one by one.
use crate::{Entry, Portion, Refusal, Sift, Tree, View, ENTRY_LEN};
use core::iter::FusedIterator;
use core::ops::{Bound, Range, RangeBounds};

/// A listing in portions, upwards: what it lists, and where the next portion starts.
///
/// It borrows neither pool nor output; each portion is lent both anew, and batches on either tree may come between. Each portion is right for the
/// tree at its moment. Keys ascend over the whole listing, so none is shown twice. A key that is live, in the range and not sifted out at every
/// one of these moments is shown exactly once before the listing ends.
///
/// Each portion tests the whole pool first, as every call does: the larger the portion, the less an entry costs.
///
/// ```
/// use alarm_index::{pool_len, Limits, Listing, Pool, Reference, Settings, Sift, Tree, ENTRY_LEN};
///
/// # fn main() -> Result<(), alarm_index::Refusal> {
/// let mut bytes = [0; pool_len(16, 4, 4)];
/// let limits = Limits { order: 4, minimum: 2 };
/// let mut pool = Pool::open(&mut bytes, Settings { nodes: 16, first: limits, second: limits })?;
/// let alarm = Reference { place: 256, size: 16 };
/// pool.set(Tree::First, &[10, 20, 30, 40], alarm)?;
///
/// // two to a screen, and while the first is read one alarm is struck out and two come in
/// let mut screen = [0; 2 * ENTRY_LEN];
/// let mut listing = Listing::new(Tree::First, .., Sift::All);
/// let first = listing.next(pool.view(), &mut screen)?.expect("a portion");
/// assert!(first.entries.map(|e| e.key).eq([10, 20]));
/// pool.remove(Tree::First, &[20])?;
/// pool.set(Tree::First, &[15, 35], alarm)?;
///
/// let mut rest = vec![];
/// while let Some(portion) = listing.next(pool.view(), &mut screen)? {
///     rest.extend(portion.entries.map(|e| e.key));
/// }
/// assert_eq!(rest, [30, 35, 40]);
/// # Ok(())
/// # }
/// ```
#[derive(Clone, Debug)]
pub struct Listing {
    tree: Tree,
    /// None where it has ended.
    start: Option<Bound<u64>>,
    end: Bound<u64>,
    sift: Sift,
}

impl Listing {
    /// A listing from which no portion was taken yet.
    #[must_use]
    pub fn new(tree: Tree, range: impl RangeBounds<u64>, sift: Sift) -> Listing {
        Listing { tree, start: Some(range.start_bound().cloned()), end: range.end_bound().cloned(), sift }
    }

    /// The next portion, as large as the output; none once a portion has ended the listing. An output that has no room for an entry shows
    /// nothing, and leaves the listing where it was; so does a refusal.
    ///
    /// # Errors
    /// [`Refusal::NotSound`].
    pub fn next<'o>(&mut self, view: View<'_>, out: &'o mut [u8]) -> Result<Option<Portion<'o>>, Refusal> {
        let Some(start) = self.start else { return Ok(None) };
        let portion = view.portion(self.tree, start, self.end, self.sift, out)?;
        self.start = (!portion.ended).then_some(portion.next);
        Ok(Some(portion))
    }
}

/// The entries of a listing one by one, as [`View::list`] gives them. A refusal is given once, and nothing after it.
#[derive(Debug)]
pub struct List<'a, 'o> {
    view: View<'a>,
    listing: Listing,
    out: &'o mut [u8],
    /// The output where the lent one has no room for an entry: there the listing would never end.
    own: [u8; ENTRY_LEN],
    /// Which entries of the last portion are still to be given.
    rest: Range<usize>,
}

impl<'a, 'o> List<'a, 'o> {
    pub(crate) fn new(view: View<'a>, listing: Listing, out: &'o mut [u8]) -> List<'a, 'o> {
        List { view, listing, out, own: [0; ENTRY_LEN], rest: 0..0 }
    }
}

impl Iterator for List<'_, '_> {
    type Item = Result<Entry, Refusal>;

    fn next(&mut self) -> Option<Result<Entry, Refusal>> {
        let out = if self.out.len() < ENTRY_LEN { &mut self.own[..] } else { &mut *self.out };
        if self.rest.is_empty() {
            match self.listing.next(self.view, out) {
                Ok(portion) => self.rest = 0..portion?.entries.len(),
                Err(refusal) => {
                    self.listing.start = None;
                    return Some(Err(refusal));
                }
            }
        }
        self.rest.next().map(|i| Ok(Entry::read(&out[i * ENTRY_LEN..])))
    }
}

impl FusedIterator for List<'_, '_> {}
