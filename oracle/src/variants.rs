//! The three variants of the published module side by side. A batch may end in an error or a panic there; both are told as text.
use plain::tree::Node;
use plain::{Call, Counts};
use std::cell::Cell;
use std::panic::{catch_unwind, set_hook, take_hook, AssertUnwindSafe};
use std::sync::Once;

/// What a batch leaves: the tree and the counts, or how it failed.
pub type Left = Result<(Node, Counts), String>;

/// What a batch met on its way: unequal amounts of which the Rust takes the larger; nodes absorbed.
#[derive(Clone, Copy, Debug, Default, PartialEq, Eq)]
pub struct Met {
    pub unequal: u64,
    pub absorbed: u64,
}

macro_rules! variant {
    ($name:ident, $krate:ident) => {
        pub fn $name(order: usize, minimum: usize, root: &Node, c: &Call) -> (Left, Met) {
            let mut tree = $krate::Tree::build(order, minimum, root);
            let left = caught(|| {
                let counts = tree.batch(&c.keys, c.operation, &c.references())?;
                Ok((tree.shape(), counts))
            });
            let (unequal, absorbed) = $krate::note::take();
            (left, Met { unequal, absorbed })
        }
    };
}

variant!(first, nebari_v1);
variant!(second, nebari_v2);
variant!(third, nebari_v3);

/// Equal counts and trees.
pub fn agree(a: &Left, b: &Left) -> bool {
    match (a, b) {
        (Ok((m, c)), Ok((n, d))) => c == d && m.same_shape(n),
        _ => false,
    }
}

pub fn shown(l: &Left) -> String {
    match l {
        Ok((n, c)) => format!("{}, counts {:?}", n.picture(), c.numbers()),
        Err(e) => e.clone(),
    }
}

thread_local! {
    static EXPECTED: Cell<bool> = const { Cell::new(false) };
}

/// What the published module answers, a panic as text. Such a panic is expected, and no message is printed for it.
pub fn caught<T>(f: impl FnOnce() -> Result<T, String>) -> Result<T, String> {
    static HOOK: Once = Once::new();
    HOOK.call_once(|| {
        let usual = take_hook();
        set_hook(Box::new(move |info| {
            if !EXPECTED.get() {
                usual(info);
            }
        }));
    });
    EXPECTED.set(true);
    let answer = catch_unwind(AssertUnwindSafe(f));
    EXPECTED.set(false);
    answer.unwrap_or_else(|_| Err("panics".to_string()))
}
