//! The Rust beside one tree of a pool: the three variants of the published module, which have no slots.
use crate::session::{same, Difference};
use crate::tally::Tally;
use crate::variants::{agree, shown, Left, Met};
use plain::frame::{hex, Frame};
use plain::tree::Node;
use plain::{Call, Counts, Listing, Request, Scanned, Settings, Totals};
use std::rc::Rc;

/// A tree of each variant. A session is copied often and its trees are changed seldom, so copies share them.
#[derive(Clone)]
pub struct Published {
    first: Rc<nebari_v1::Tree>,
    second: Rc<nebari_v2::Tree>,
    third: Rc<nebari_v3::Tree>,
}

/// A batch on the tree of a variant: what it leaves, and what it met.
macro_rules! batch {
    ($krate:ident, $tree:expr, $call:expr) => {{
        let tree = Rc::make_mut($tree);
        $krate::note::take();
        let left: Left = crate::variants::caught(|| Ok((tree.batch(&$call.keys, $call.operation, &$call.references())?, tree.shape())))
            .map(|(counts, shape)| (shape, counts));
        let (unequal, absorbed) = $krate::note::take();
        (left, Met { unequal, absorbed })
    }};
}

impl Published {
    pub fn build(st: &Settings, root: &Node) -> Published {
        Published {
            first: Rc::new(nebari_v1::Tree::build(st.order, st.minimum, root)),
            second: Rc::new(nebari_v2::Tree::build(st.order, st.minimum, root)),
            third: Rc::new(nebari_v3::Tree::build(st.order, st.minimum, root)),
        }
    }

    /// A batch, of which the plain rules leave this. So must the third variant. The first two may part from it where an amount that they take
    /// larger, or a node that they absorb, was met (docs/DIFFERENCES.md); from there they go on from the plain tree.
    pub fn batch(&mut self, st: &Settings, c: &Call, root: &Node, counts: Counts, tally: &mut Tally) -> Result<(), Difference> {
        let plain: Left = Ok((root.clone(), counts));
        let (third, _) = batch!(nebari_v3, &mut self.third, c);
        if !agree(&third, &plain) {
            return Err(format!("third variant: {} beside the plain model's {}", shown(&third), shown(&plain)));
        }
        let (second, met) = batch!(nebari_v2, &mut self.second, c);
        if !agree(&second, &plain) {
            excused("second variant", met.absorbed > 0, &second, &plain, tally)?;
            self.second = Rc::new(nebari_v2::Tree::build(st.order, st.minimum, root));
        }
        let (first, met) = batch!(nebari_v1, &mut self.first, c);
        if !agree(&first, &plain) {
            excused("first variant", met.unequal + met.absorbed > 0, &first, &plain, tally)?;
            self.first = Rc::new(nebari_v1::Tree::build(st.order, st.minimum, root));
        }
        Ok(())
    }

    pub fn totals(&self, wanted: Totals) -> Result<(), Difference> {
        same("first variant, totals", self.first.totals(), wanted)?;
        same("second variant, totals", self.second.totals(), wanted)?;
        same("third variant, totals", self.third.totals(), wanted)
    }

    /// The list is the same by each; the root's answer after a stop is that of the last two alone.
    pub fn get(&self, keys: &[u64], room: usize, wanted: &Listing) -> Result<(), Difference> {
        same("first variant, get", &self.first.get(keys, room).listed, wanted)?;
        let second = self.second.get(keys, room);
        same("second variant, get", &second.listed, wanted)?;
        let third = self.third.get(keys, room);
        same("third variant, get", &third.listed, wanted)?;
        same("second variant, the root's answer to a get", second.went_on, !wanted.more)?;
        same("third variant, the root's answer to a get", third.went_on, !wanted.more)
    }

    pub fn scan(&self, q: &Request, room: usize, wanted: &Scanned) -> Result<(), Difference> {
        same("first variant, scan", &self.first.scan(q, room), wanted)?;
        same("second variant, scan", &self.second.scan(q, room), wanted)?;
        same("third variant, scan", &self.third.scan(q, room), wanted)
    }

    pub fn frame(&self, i: usize, wanted: &Frame) -> Result<(), Difference> {
        same("first variant, frame", hex(&self.first.frames()[i]), wanted.line())?;
        same("second variant, frame", hex(&self.second.frames()[i]), wanted.line())?;
        same("third variant, frame", hex(&self.third.frames()[i]), wanted.line())
    }
}

/// A variant that parts from the plain rules has met the cause of it.
fn excused(variant: &str, met: bool, left: &Left, plain: &Left, tally: &mut Tally) -> Result<(), Difference> {
    if !met {
        return Err(format!("{variant}, without a cause: {} beside the plain model's {}", shown(left), shown(plain)));
    }
    tally.count(&format!("{variant}, another tree, with a cause"));
    Ok(())
}
