//! What there is to do next.

use crate::sys::{FySeen, NOBODY, NOTHING};

/// The time, and what there is to do next in the simulated cluster.
#[derive(Clone, Copy, Debug, PartialEq, Eq, Hash)]
pub struct Sight {
    /// The time, in ticks.
    pub now: u64,
    /// The least message that a deliver would accept now.
    pub deliverable: Option<u64>,
    /// The least process that is up and has unsynced writes.
    pub unsynced: Option<u32>,
    /// The least process that is neither up nor gone.
    pub sleeping: Option<u32>,
}

impl Sight {
    pub(crate) fn of(seen: &FySeen) -> Sight {
        Sight {
            now: seen.now,
            deliverable: Some(seen.deliverable).filter(|it| *it != NOTHING),
            unsynced: somebody(seen.unsynced),
            sleeping: somebody(seen.sleeping),
        }
    }
}

/// The process with this number, or none for `FY_NOBODY`.
pub(crate) fn somebody(process: u32) -> Option<u32> {
    Some(process).filter(|it| *it != NOBODY)
}
