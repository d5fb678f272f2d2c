//! What a batch does, and what it tells.

/// What a key stands for. Place 0 marks a deletion.
#[derive(Clone, Copy, Debug, Default, PartialEq, Eq, Hash)]
pub struct Reference {
    /// Where the alarm is kept; 0 in a dead entry.
    pub place: u64,
    /// How large it is there.
    pub size: u32,
}

/// What a batch does with each of its keys.
#[derive(Clone, Copy, Debug, PartialEq, Eq)]
pub enum Operation<'a> {
    /// Sets the key to this reference.
    Set(Reference),
    /// Sets the key to the place and the size that stand where it stands.
    SetEach {
        /// As many as keys.
        places: &'a [u64],
        /// As many as keys.
        sizes: &'a [u32],
    },
    /// Removes the key; does nothing where it is absent.
    Remove,
    /// Does the action where the key is as expected, and else nothing.
    Compare(Expectation, Action),
}

/// What a key must be for a [`Operation::Compare`] to act on it.
#[derive(Clone, Copy, Debug, PartialEq, Eq)]
pub enum Expectation {
    /// There is no entry, not even a dead one.
    Absent,
    /// There is an entry with this reference, place and size both.
    Holds(Reference),
}

/// What a [`Operation::Compare`] does.
#[derive(Clone, Copy, Debug, PartialEq, Eq)]
pub enum Action {
    /// Sets the key to this reference.
    Set(Reference),
    /// Removes the key.
    Remove,
}

/// How many keys of a batch did what.
#[derive(Clone, Copy, Debug, Default, PartialEq, Eq)]
pub struct Counts {
    /// They were absent, and were set.
    pub added: u64,
    /// They were present, and were set, be it to an equal reference.
    pub replaced: u64,
    /// They were present, and are absent now.
    pub removed: u64,
    /// Nothing was done.
    pub nothing: u64,
}

impl From<[u64; 4]> for Counts {
    fn from([added, replaced, removed, nothing]: [u64; 4]) -> Counts {
        Counts { added, replaced, removed, nothing }
    }
}
