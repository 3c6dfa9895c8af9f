//! How much of the cluster may still be lost.

use crate::sys::FyBorne;

/// How much of the cluster may still be lost: any so many processes together, whichever they are.
#[derive(Clone, Copy, Debug, PartialEq, Eq, Hash)]
pub struct Borne {
    /// So many may be emptied.
    pub emptied: u32,
    /// So many may be killed for good.
    pub gone: u32,
    /// Whether some set of one more may not be emptied; where none was found, more may be borne.
    pub emptied_exact: bool,
    /// The same of those killed for good.
    pub gone_exact: bool,
}

impl Borne {
    pub(crate) fn of(told: &FyBorne) -> Borne {
        Borne {
            emptied: told.emptied,
            gone: told.gone,
            emptied_exact: told.emptied_exact != 0,
            gone_exact: told.gone_exact != 0,
        }
    }
}
