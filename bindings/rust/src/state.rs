//! The state of a process.

use crate::sys::{NOBODY, STATE_CLOGGED, STATE_DESTROYED, STATE_GONE, STATE_UP};

/// The state of a process.
#[derive(Clone, Copy, Debug, PartialEq, Eq, Hash)]
pub struct State {
    /// It runs.
    pub up: bool,
    /// Its messages are held back.
    pub clogged: bool,
    /// It was struck by a kind that empties its disk, and not healed since.
    pub destroyed: bool,
    /// It was killed for good.
    pub gone: bool,
}

impl State {
    /// The state that `fy_state` tells by these bits, or none for `FY_NOBODY`.
    pub(crate) fn of(bits: u32) -> Option<State> {
        let state = State {
            up: bits & STATE_UP != 0,
            clogged: bits & STATE_CLOGGED != 0,
            destroyed: bits & STATE_DESTROYED != 0,
            gone: bits & STATE_GONE != 0,
        };
        Some(state).filter(|_| bits != NOBODY)
    }
}
