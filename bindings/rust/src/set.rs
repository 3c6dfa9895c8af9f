//! Sets of processes.

use crate::sys::SET_WORDS;
use std::fmt;

/// How many processes a cluster has at most.
pub(crate) const MOST_PROCESSES: u32 = 64 * SET_WORDS as u32;

/// A set of processes, by their numbers: their places in the cluster file, from 0.
#[derive(Clone, Copy, Default, PartialEq, Eq, Hash)]
pub struct ProcessSet(pub(crate) [u64; SET_WORDS]);

impl ProcessSet {
    /// Whether a process is in it.
    pub fn contains(&self, process: u32) -> bool {
        let word = self.0.get(process as usize / 64);
        word.map_or(false, |word| word >> (process % 64) & 1 == 1)
    }

    /// How many processes it has.
    pub fn len(&self) -> usize {
        self.0.iter().map(|word| word.count_ones() as usize).sum()
    }

    /// Whether it has none.
    pub fn is_empty(&self) -> bool {
        self.0.iter().all(|word| *word == 0)
    }

    /// Its processes, by rising number.
    pub fn iter(&self) -> impl Iterator<Item = u32> + '_ {
        (0..MOST_PROCESSES).filter(|process| self.contains(*process))
    }
}

impl fmt::Debug for ProcessSet {
    fn fmt(&self, f: &mut fmt::Formatter<'_>) -> fmt::Result {
        f.debug_set().entries(self.iter()).finish()
    }
}
