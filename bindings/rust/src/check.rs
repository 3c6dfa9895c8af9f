//! Audits that are checked line by line.

use crate::error::done;
use crate::guard::fault_of;
use crate::sys::{self, FyCheck};
use crate::{ConfigFault, Error};
use std::{fmt, ptr};

/// What is found of an audit.
#[derive(Clone, Copy, Debug, Default, PartialEq, Eq, Hash)]
pub struct Finding {
    /// How many entries were read.
    pub count: u32,
    /// The place of the first that isn't what the rules give, from 0.
    pub first_bad: Option<u32>,
}

/// An audit that is checked line by line, as `faultyard check` does.
///
/// It is `Send`: it may be moved to another thread. It is closed when it is dropped.
pub struct Check {
    /// Open.
    raw: FyCheck,
}

// SAFETY: the header: "It may be moved to another thread, and one call at a time is made with it."
// A `Check` is the only one with its struct: it is no `Clone`, and hands out no pointer of it.
unsafe impl Send for Check {}

// Each SAFETY comment below that says "as in `line`" means what stands there.
impl Check {
    /// Begins to check an audit of a cluster that began with this cluster file, given as its text.
    ///
    /// # Errors
    ///
    /// [`Error::Config`] or [`Error::NoMemory`].
    pub fn begin(config: impl AsRef<[u8]>) -> Result<Check, Error> {
        let config = config.as_ref();
        let mut raw = FyCheck {
            at: ptr::null_mut(),
        };
        // SAFETY: the pointer of a slice isn't null, and `len` bytes behind it may be read. The
        // check is closed. If it isn't begun, it stays closed, and there is nothing to free.
        let status = unsafe { sys::fy_begin_check(config.as_ptr(), config.len(), &mut raw) };
        if ConfigFault::STATUSES.contains(&status) {
            return Err(fault_of(config));
        }
        done(status)?;
        Ok(Check { raw })
    }

    /// Reads the next line, which ends with a line feed: the header, and then an entry each time.
    /// Answers the place of the first entry so far that isn't what the rules give, from 0. Behind
    /// it lines are read for their faults alone.
    ///
    /// # Errors
    ///
    /// In this order: [`Error::AuditTooLong`], [`Error::NoHeader`], [`Error::LineTooLong`],
    /// [`Error::LineSyntax`]; [`Error::NoMemory`] in place of the last. The line counts as not
    /// read.
    pub fn line(&mut self, line: impl AsRef<[u8]>) -> Result<Option<u32>, Error> {
        let line = line.as_ref();
        let mut first_bad = 0;
        // SAFETY: the check is open, since only `drop` closes it. By `&mut self` no other call is
        // made with it meanwhile. The line is a slice with its length, and the answer goes to a
        // variable of its own.
        let status =
            unsafe { sys::fy_read_line(&mut self.raw, line.as_ptr(), line.len(), &mut first_bad) };
        done(status)?;
        Ok(entry(first_bad))
    }

    /// What is found of the lines that were read. The check goes on.
    ///
    /// # Errors
    ///
    /// [`Error::NoHeader`] where none was.
    pub fn finding(&self) -> Result<Finding, Error> {
        let (mut count, mut first_bad) = (0, 0);
        // SAFETY: as in `line`.
        done(unsafe { sys::fy_finding(&self.raw, &mut count, &mut first_bad) })?;
        let first_bad = entry(first_bad);
        Ok(Finding { count, first_bad })
    }
}

/// The entry at this place, or none for `FY_NO_BAD_ENTRY`.
fn entry(at: u32) -> Option<u32> {
    Some(at).filter(|it| *it != sys::NO_BAD_ENTRY)
}

impl Drop for Check {
    fn drop(&mut self) {
        let open = FyCheck { at: self.raw.at };
        self.raw.at = ptr::null_mut();
        // SAFETY: as in `line`; nothing uses the check after.
        unsafe { sys::fy_end_check(open) }
    }
}

impl fmt::Debug for Check {
    fn fmt(&self, f: &mut fmt::Formatter<'_>) -> fmt::Result {
        f.debug_struct("Check")
            .field("finding", &self.finding())
            .finish_non_exhaustive()
    }
}
