//! The guard.

use crate::error::{accepted, done};
use crate::set::MOST_PROCESSES;
use crate::sight::somebody;
use crate::sys::{self, FyBorne, FyGuard, FySeen};
use crate::verdict::struck_by;
use crate::{Borne, ConfigFault, Error, Key, Kind, ProcessSet, Refusal, Sight, State, Verdict};
use std::ops::Range;
use std::{fmt, io, ptr};

/// The first line of an audit. The lines of the journal follow.
pub const AUDIT_HEADER: &str = "{\"audit\":2}\n";

/// How many bytes of an entry are read at the first try.
const USUAL_LINE: usize = 256;

/// How many lines are read before they are written.
const LINES_AT_ONCE: usize = 1024;

/// A guard. Each call is one of the library.
///
/// It is `Send` and `Sync`: it may be moved to another thread, a `Mutex` shares it, and threads
/// that only ask may share it without one. It is closed when it is dropped.
pub struct Guard {
    /// Open.
    raw: FyGuard,
}

// SAFETY: the header: "A guard may be moved to another thread, and one call at a time is made with
// it", and "Guards of different threads have nothing in common." A `Guard` is the only one with
// its struct: it is no `Clone`, and hands out no pointer of it.
unsafe impl Send for Guard {}

// SAFETY: the header: "Calls that take a `const fy_guard *` write neither the struct nor what it
// points to, so they may be made at once while no other call is." They are those that take `&self`
// here, and all others take `&mut self`.
unsafe impl Sync for Guard {}

// Each SAFETY comment below that says "as in `kill`" or "as in `process`" means what stands there.
impl Guard {
    /// Opens a guard of a cluster in which nothing happened yet, by the text of a cluster file.
    ///
    /// # Errors
    ///
    /// [`Error::Config`] or [`Error::NoMemory`].
    pub fn open(config: impl AsRef<[u8]>) -> Result<Guard, Error> {
        let config = config.as_ref();
        let mut raw = FyGuard {
            at: ptr::null_mut(),
        };
        // SAFETY: the pointer of a slice isn't null, and `len` bytes behind it may be read. The
        // guard is closed. If it isn't opened, it stays closed, and there is nothing to free.
        let status = unsafe { sys::fy_open(config.as_ptr(), config.len(), &mut raw) };
        if ConfigFault::STATUSES.contains(&status) {
            return Err(fault_of(config));
        }
        done(status)?;
        Ok(Guard { raw })
    }

    /// Opens a guard that goes on where an audit ends, by its whole text: its journal is that of
    /// the audit, whose acts are made once more.
    ///
    /// # Errors
    ///
    /// In this order: [`Error::Config`]; [`Error::AuditTooLong`]; [`Error::NoHeader`], also for an
    /// audit of the first version; then of the first line that is at fault
    /// [`Error::LineTooLong`], [`Error::LineSyntax`] (half a last line too) or
    /// [`Error::Refuted`]. [`Error::NoMemory`] in place of any.
    pub fn open_after(config: impl AsRef<[u8]>, audit: impl AsRef<[u8]>) -> Result<Guard, Error> {
        let (config, audit) = (config.as_ref(), audit.as_ref());
        let mut raw = FyGuard {
            at: ptr::null_mut(),
        };
        let mut bad = sys::NO_BAD_ENTRY;
        // SAFETY: as in `open`, and so for the audit. `bad` may be written.
        let status = unsafe {
            sys::fy_open_after(
                config.as_ptr(),
                config.len(),
                audit.as_ptr(),
                audit.len(),
                &mut raw,
                &mut bad,
            )
        };
        if ConfigFault::STATUSES.contains(&status) {
            return Err(fault_of(config));
        }
        if status == sys::REFUTED {
            return Err(Error::Refuted(bad));
        }
        done(status)?;
        Ok(Guard { raw })
    }

    /// Puts the guard back to where nothing happened yet, without reading its cluster file again.
    ///
    /// # Errors
    ///
    /// [`Error::NoMemory`].
    pub fn reset(&mut self) -> Result<(), Error> {
        // SAFETY: as in `kill`.
        done(unsafe { sys::fy_reset(&mut self.raw) })
    }

    /// Opens a second guard with the same journal, to look ahead: what is done with one changes
    /// nothing of the other. The state is copied, and no act of the journal is made again.
    ///
    /// # Errors
    ///
    /// [`Error::NoMemory`].
    pub fn try_copy(&self) -> Result<Guard, Error> {
        let mut raw = FyGuard {
            at: ptr::null_mut(),
        };
        // SAFETY: as in `process`. The other guard is closed. If it isn't opened, it stays closed,
        // and there is nothing to free.
        done(unsafe { sys::fy_try_copy(&self.raw, &mut raw) })?;
        Ok(Guard { raw })
    }

    /// Orders a kill of the processes whose `key` has this value: by `kind`, or where that is
    /// barred by a milder kind, down to `floor`. Bit i of `tear` is 1 where a reboot keeps the
    /// unsynced write i.
    ///
    /// # Errors
    ///
    /// In this order: [`Error::Name`], [`Error::Floor`], [`Error::JournalFull`],
    /// [`Error::NoMemory`]. [`Refusal::Stranger`] where there is no such actor. A kill that a
    /// rule bars is no error.
    pub fn kill(
        &mut self,
        actor: u32,
        key: Key,
        value: &str,
        kind: Kind,
        floor: Kind,
        tear: u64,
    ) -> Result<Verdict, Error> {
        let (mut struck, mut rule, mut named) = (0, 0, 0);
        // SAFETY: the guard is open, since only `drop` closes it. By `&mut self` no other call is
        // made with it meanwhile, and the library calls nothing back. The value is a slice, and
        // each answer goes to a variable of its own.
        let status = unsafe {
            sys::fy_kill(
                &mut self.raw,
                actor,
                key.into(),
                value.as_ptr(),
                value.len(),
                kind.into(),
                floor.into(),
                tear,
                &mut struck,
                &mut rule,
                &mut named,
            )
        };
        // No other refusal of a kill is there.
        accepted(status, Refusal::Stranger.into())?;
        Verdict::of(struck, rule, named)
    }

    /// What [`kill`](Guard::kill) would answer now to the same order, if the journal had room. It
    /// enters nothing.
    ///
    /// # Errors
    ///
    /// In this order: [`Error::Name`], [`Error::Floor`]. [`Refusal::Stranger`] where there is no
    /// such actor.
    pub fn judge(
        &self,
        actor: u32,
        key: Key,
        value: &str,
        kind: Kind,
        floor: Kind,
    ) -> Result<Verdict, Error> {
        let (mut struck, mut rule, mut named) = (0, 0, 0);
        // SAFETY: as in `process`. The value is a slice, and each answer goes to a variable of its
        // own.
        let status = unsafe {
            sys::fy_judge(
                &self.raw,
                actor,
                key.into(),
                value.as_ptr(),
                value.len(),
                kind.into(),
                floor.into(),
                &mut struck,
                &mut rule,
                &mut named,
            )
        };
        accepted(status, Refusal::Stranger.into())?;
        Verdict::of(struck, rule, named)
    }

    /// What [`kill`](Guard::kill) does with [`Key::Process`] and the name of the process with this
    /// number. No name is looked up, so it is quicker.
    ///
    /// # Errors
    ///
    /// In this order: [`Error::Argument`] where no process has this number, [`Error::Floor`],
    /// [`Error::JournalFull`], [`Error::NoMemory`]. [`Refusal::Stranger`] where there is no such
    /// actor.
    pub fn kill_process(
        &mut self,
        actor: u32,
        process: u32,
        kind: Kind,
        floor: Kind,
        tear: u64,
    ) -> Result<Verdict, Error> {
        let (mut struck, mut rule, mut named) = (0, 0, 0);
        // SAFETY: as in `kill`. Each answer goes to a variable of its own.
        let status = unsafe {
            sys::fy_kill_process(
                &mut self.raw,
                actor,
                process,
                kind.into(),
                floor.into(),
                tear,
                &mut struck,
                &mut rule,
                &mut named,
            )
        };
        accepted(status, Refusal::Stranger.into())?;
        Verdict::of(struck, rule, named)
    }

    /// What [`kill_process`](Guard::kill_process) would answer now to the same order, if the
    /// journal had room. It enters nothing.
    ///
    /// # Errors
    ///
    /// In this order: [`Error::Argument`] where no process has this number, [`Error::Floor`].
    /// [`Refusal::Stranger`] where there is no such actor.
    pub fn judge_process(
        &self,
        actor: u32,
        process: u32,
        kind: Kind,
        floor: Kind,
    ) -> Result<Verdict, Error> {
        let (mut struck, mut rule, mut named) = (0, 0, 0);
        // SAFETY: as in `process`. Each answer goes to a variable of its own.
        let status = unsafe {
            sys::fy_judge_process(
                &self.raw,
                actor,
                process,
                kind.into(),
                floor.into(),
                &mut struck,
                &mut rule,
                &mut named,
            )
        };
        accepted(status, Refusal::Stranger.into())?;
        Verdict::of(struck, rule, named)
    }

    /// Of each process, by its number, the kind by which a kill of it alone would strike now,
    /// ordered by this actor by [`Kind::KillInstantly`] with the floor [`Kind::RebootProcess`];
    /// `None` where nothing would strike. Once one is killed, fewer may be. It enters nothing.
    ///
    /// # Errors
    ///
    /// [`Refusal::Stranger`] where there is no such actor.
    pub fn killable(&self, actor: u32) -> Result<Vec<Option<Kind>>, Error> {
        let mut kinds = [0; MOST_PROCESSES as usize];
        let mut told = 0;
        // SAFETY: as in `process`. The room has this length, and the count goes to a variable of
        // its own.
        let status = unsafe {
            sys::fy_killable(&self.raw, actor, kinds.as_mut_ptr(), kinds.len(), &mut told)
        };
        accepted(status, Refusal::Stranger.into())?;
        let front = kinds.get(..told).ok_or(Error::Protocol("a number"))?;
        front.iter().map(|it| struck_by(u32::from(*it))).collect()
    }

    /// Reports that a process runs again, by an actor whose role is storage.
    ///
    /// # Errors
    ///
    /// [`Error::JournalFull`], [`Error::NoMemory`]. [`Error::Refused`] where the process is up,
    /// gone or not there, or the actor may not say so.
    pub fn up(&mut self, actor: u32, process: u32) -> Result<(), Error> {
        let mut refusal = 0;
        // SAFETY: as in `kill`.
        let status = unsafe { sys::fy_up(&mut self.raw, actor, process, &mut refusal) };
        accepted(status, refusal)
    }

    /// Reports that a destroyed process has every acknowledged record on its disk again, by an
    /// actor whose role is storage. Report it only then: the guard counts on that copy.
    ///
    /// # Errors
    ///
    /// As of [`up`](Guard::up); [`Error::Refused`] also where the process isn't destroyed.
    pub fn heal(&mut self, actor: u32, process: u32) -> Result<(), Error> {
        let mut refusal = 0;
        // SAFETY: as in `kill`.
        let status = unsafe { sys::fy_heal(&mut self.raw, actor, process, &mut refusal) };
        accepted(status, refusal)
    }

    /// Makes any act, given as its line of a script, and answers the line of its entry with its
    /// line feed. A refused act is no error here: its line has the refusal.
    ///
    /// # Errors
    ///
    /// In this order: [`Error::LineTooLong`], [`Error::LineSyntax`], [`Error::Floor`],
    /// [`Error::JournalFull`]; [`Error::NoMemory`] in place of any.
    pub fn act(&mut self, line: &str) -> Result<String, Error> {
        let mut answer = vec![0; line.len() + sys::MOST_REPLY];
        let mut told = 0;
        // SAFETY: as in `kill`. The line and the buffer are two slices with their lengths.
        let status = unsafe {
            sys::fy_act(
                &mut self.raw,
                line.as_ptr(),
                line.len(),
                answer.as_mut_ptr(),
                answer.len(),
                &mut told,
            )
        };
        match done(status) {
            // The act is made, so its line is read from the journal.
            Err(Error::Unwritten) => self
                .entry(self.journal_len().saturating_sub(1))
                .map_err(|_| Error::Unwritten),
            made => {
                made?;
                answer.truncate(told);
                text(answer)
            }
        }
    }

    /// Asks any question, given as its line, and answers the line of what is told with its line
    /// feed. docs/FORMATS.md has the questions. Nothing changes.
    ///
    /// # Errors
    ///
    /// In this order: [`Error::LineTooLong`], [`Error::LineSyntax`], [`Error::Floor`];
    /// [`Error::NoMemory`] in place of any but the first.
    pub fn ask(&self, line: &str) -> Result<String, Error> {
        let mut bytes = Vec::new();
        append_told(&mut bytes, |room, length, told| {
            // SAFETY: as in `process`. The line and the room have these lengths.
            unsafe { sys::fy_ask(&self.raw, line.as_ptr(), line.len(), room, length, told) }
        })?;
        text(bytes)
    }

    /// The number of the process whose processid is this name.
    pub fn process(&self, name: &str) -> Option<u32> {
        // SAFETY: the guard is open, since only `drop` closes it. By `&self` no call that writes it
        // is made meanwhile. The name is a slice with its length.
        somebody(unsafe { sys::fy_process(&self.raw, name.as_ptr(), name.len()) })
    }

    /// How many processes there are; they are numbered from 0.
    pub fn process_count(&self) -> u32 {
        // SAFETY: as in `process`.
        unsafe { sys::fy_process_count(&self.raw) }
    }

    /// The processes that a kill of this key and value is about: those that have the value and
    /// aren't gone for good, emptied or not. Ask before the kill, which may be for good.
    ///
    /// # Errors
    ///
    /// [`Error::Name`].
    pub fn targets(&self, key: Key, value: &str) -> Result<ProcessSet, Error> {
        let mut set = ProcessSet::default();
        // SAFETY: as in `process`. The set has FY_SET_WORDS words.
        let status = unsafe {
            sys::fy_targets(
                &self.raw,
                key.into(),
                value.as_ptr(),
                value.len(),
                set.0.as_mut_ptr(),
                set.0.len(),
            )
        };
        done(status).map(|()| set)
    }

    /// Whether a process is destroyed: struck by a kind that empties its disk, and not healed
    /// since.
    pub fn is_destroyed(&self, process: u32) -> bool {
        // SAFETY: as in `process`.
        unsafe { sys::fy_is_destroyed(&self.raw, process) != 0 }
    }

    /// The processes that aren't gone for good, emptied or not.
    pub fn left(&self) -> ProcessSet {
        self.set(sys::fy_left)
    }

    /// The processes that are up.
    pub fn up_set(&self) -> ProcessSet {
        self.set(sys::fy_up_set)
    }

    /// The processes that are destroyed, gone for good or not.
    pub fn destroyed(&self) -> ProcessSet {
        self.set(sys::fy_destroyed_set)
    }

    /// The processes that are gone for good.
    pub fn gone(&self) -> ProcessSet {
        self.set(sys::fy_gone_set)
    }

    /// The set that a call of the library writes.
    fn set(&self, call: unsafe extern "C" fn(*const FyGuard, *mut u64, usize)) -> ProcessSet {
        let mut set = ProcessSet::default();
        // SAFETY: as in `process`. The call is one of the four above, and the set has
        // FY_SET_WORDS words.
        unsafe { call(&self.raw, set.0.as_mut_ptr(), set.0.len()) };
        set
    }

    /// The state of a process; `None` where there is no process with this number.
    pub fn state(&self, process: u32) -> Option<State> {
        // SAFETY: as in `process`.
        State::of(unsafe { sys::fy_state(&self.raw, process) })
    }

    /// The record that a process still needs before it may be healed: of its teams' records, the
    /// least acknowledged one that it hasn't synced. [`heal`](Guard::heal) is refused with
    /// [`Refusal::StillNeeds`] for it.
    pub fn needed(&self, process: u32) -> Option<u32> {
        // SAFETY: as in `process`.
        let record = unsafe { sys::fy_needed(&self.raw, process) };
        Some(record).filter(|it| *it != sys::NO_SUCH_RECORD)
    }

    /// Whether a record is acknowledged.
    pub fn is_acked(&self, record: u32) -> bool {
        // SAFETY: as in `process`.
        unsafe { sys::fy_is_acked(&self.raw, record) != 0 }
    }

    /// Who keeps an acknowledged record: the least member of its team that isn't destroyed and has
    /// the record synced. `None` for any other record.
    pub fn keeper(&self, record: u32) -> Option<u32> {
        // SAFETY: as in `process`.
        somebody(unsafe { sys::fy_keeper(&self.raw, record) })
    }

    /// The time, and what there is to do next.
    pub fn sight(&self) -> Sight {
        let mut seen = FySeen {
            now: 0,
            deliverable: 0,
            unsynced: 0,
            sleeping: 0,
        };
        // SAFETY: as in `process`. The answer goes to a variable of its own.
        unsafe { sys::fy_sight(&self.raw, &mut seen) };
        Sight::of(&seen)
    }

    /// How much of the cluster may still be lost, as the journal left it: the numbers that
    /// `faultyard bears` tells first.
    ///
    /// # Errors
    ///
    /// [`Error::NoMemory`].
    pub fn bears(&self) -> Result<Borne, Error> {
        let mut told = FyBorne {
            emptied: 0,
            gone: 0,
            emptied_exact: 0,
            gone_exact: 0,
        };
        // SAFETY: as in `process`. The answer goes to a variable of its own.
        done(unsafe { sys::fy_bears(&self.raw, &mut told) })?;
        Ok(Borne::of(&told))
    }

    /// How many entries the journal has.
    pub fn journal_len(&self) -> usize {
        // SAFETY: as in `process`.
        unsafe { sys::fy_journal_len(&self.raw) }
    }

    /// The line of the entry at a place of the journal, from 0, with its line feed.
    ///
    /// # Errors
    ///
    /// [`Error::NoEntry`] or [`Error::NoMemory`].
    pub fn entry(&self, at: usize) -> Result<String, Error> {
        let mut bytes = Vec::new();
        self.append_entry(at, &mut bytes)?;
        text(bytes)
    }

    /// The lines of all entries so far, in their order.
    pub fn journal(
        &self,
    ) -> impl DoubleEndedIterator<Item = Result<String, Error>> + ExactSizeIterator + '_ {
        (0..self.journal_len()).map(move |at| self.entry(at))
    }

    /// The audit: [`AUDIT_HEADER`] and the lines of the journal. `faultyard check` confirms it.
    ///
    /// # Errors
    ///
    /// [`Error::NoMemory`].
    pub fn audit(&self) -> Result<String, Error> {
        let mut bytes = AUDIT_HEADER.as_bytes().to_vec();
        self.append_entries(0..self.journal_len(), &mut bytes)?;
        text(bytes)
    }

    /// Writes the audit, some thousand lines at a time, and flushes it.
    ///
    /// # Errors
    ///
    /// The writer's; an error of kind `OutOfMemory` for [`Error::NoMemory`].
    pub fn write_audit(&self, mut to: impl io::Write) -> io::Result<()> {
        to.write_all(AUDIT_HEADER.as_bytes())?;
        let (count, mut bytes) = (self.journal_len(), Vec::new());
        for from in (0..count).step_by(LINES_AT_ONCE) {
            bytes.clear();
            self.append_entries(from..count.min(from + LINES_AT_ONCE), &mut bytes)?;
            to.write_all(&bytes)?;
        }
        to.flush()
    }

    /// The struct of the library, for a call that only asks.
    pub(crate) fn raw(&self) -> &FyGuard {
        &self.raw
    }

    /// Puts the lines of some entries behind what is there.
    fn append_entries(&self, range: Range<usize>, bytes: &mut Vec<u8>) -> Result<(), Error> {
        for at in range {
            self.append_entry(at, bytes)?;
        }
        Ok(())
    }

    /// Puts the line of an entry behind what is there, which after an error is of no use.
    fn append_entry(&self, at: usize, bytes: &mut Vec<u8>) -> Result<(), Error> {
        append_told(bytes, |room, length, told| {
            // SAFETY: as in `process`. The room has this length.
            unsafe { sys::fy_audit(&self.raw, at, room, length, told) }
        })
    }
}

/// Puts the line that a call writes to a room of a length behind what is there.
fn append_told(
    bytes: &mut Vec<u8>,
    call: impl Fn(*mut u8, usize, &mut usize) -> u32,
) -> Result<(), Error> {
    let front = bytes.len();
    let mut told = USUAL_LINE;
    loop {
        bytes.resize(front + told, 0);
        let length = told;
        let status = call(bytes[front..].as_mut_ptr(), length, &mut told);
        if status == sys::SHORT && told > length {
            continue;
        }
        done(status)?;
        bytes.truncate(front + told);
        return Ok(());
    }
}

/// The error of a text that is no cluster file. It is read again to say where its fault is.
pub(crate) fn fault_of(config: &[u8]) -> Error {
    let (mut part, mut place) = (0, 0);
    // SAFETY: as in `open`. Each answer goes to a variable of its own.
    let status =
        unsafe { sys::fy_config_fault(config.as_ptr(), config.len(), &mut part, &mut place) };
    match ConfigFault::of(status, part, place) {
        Ok(fault) => Error::Config(fault),
        Err(error) => error,
    }
}

/// Bytes of an audit as text.
fn text(bytes: Vec<u8>) -> Result<String, Error> {
    String::from_utf8(bytes).map_err(|_| Error::Protocol("a line that is no text"))
}

impl Guard {
    /// The open guard, for the calls of acts.rs: by `&mut self` no other call is made meanwhile.
    pub(crate) fn raw_mut(&mut self) -> &mut FyGuard {
        &mut self.raw
    }
}

impl Drop for Guard {
    fn drop(&mut self) {
        let open = FyGuard { at: self.raw.at };
        self.raw.at = ptr::null_mut();
        // SAFETY: as in `kill`; nothing uses the guard after.
        unsafe { sys::fy_close(open) }
    }
}

impl fmt::Debug for Guard {
    fn fmt(&self, f: &mut fmt::Formatter<'_>) -> fmt::Result {
        f.debug_struct("Guard")
            .field("journal_len", &self.journal_len())
            .finish_non_exhaustive()
    }
}
