//! The acts by numbers: a call of the library for each, without a text that is made and read again.

use crate::error::refused_by;
use crate::guard::Guard;
use crate::sys::{self, FyGuard, FyReply};
use crate::{Error, Key, Rule};
use std::ops::{BitOr, BitOrAssign};

/// A set of kinds of kill and of clogging, as `Kinds::REBOOT | Kinds::CLOG`.
#[derive(Clone, Copy, Debug, Default, PartialEq, Eq, Hash)]
pub struct Kinds(u32);

impl Kinds {
    /// None of them.
    pub const NONE: Kinds = Kinds(0);
    /// [`Kind::RebootProcess`](crate::Kind::RebootProcess) alone.
    pub const REBOOT_PROCESS: Kinds = Kinds(sys::KINDS_REBOOT_PROCESS);
    /// [`Kind::Reboot`](crate::Kind::Reboot) alone.
    pub const REBOOT: Kinds = Kinds(sys::KINDS_REBOOT);
    /// [`Kind::RebootAndDelete`](crate::Kind::RebootAndDelete) alone.
    pub const REBOOT_AND_DELETE: Kinds = Kinds(sys::KINDS_REBOOT_AND_DELETE);
    /// [`Kind::KillInstantly`](crate::Kind::KillInstantly) alone.
    pub const KILL_INSTANTLY: Kinds = Kinds(sys::KINDS_KILL_INSTANTLY);
    /// Clogging alone.
    pub const CLOG: Kinds = Kinds(sys::KINDS_CLOG);
    /// All of them.
    pub const ALL: Kinds = Kinds(sys::KINDS_ALL);

    /// Whether all of these are in it.
    pub const fn contains(self, these: Kinds) -> bool {
        self.0 & these.0 == these.0
    }
}

impl BitOr for Kinds {
    type Output = Kinds;

    fn bitor(self, other: Kinds) -> Kinds {
        Kinds(self.0 | other.0)
    }
}

impl BitOrAssign for Kinds {
    fn bitor_assign(&mut self, other: Kinds) {
        self.0 |= other.0;
    }
}

/// Which processes a grant is for.
#[derive(Clone, Copy, Debug, PartialEq, Eq, Hash)]
pub enum Scope<'a> {
    /// Every process.
    All,
    /// Those whose key has this value.
    Where(Key, &'a str),
}

/// A record that was begun.
#[derive(Clone, Copy, Debug, PartialEq, Eq, Hash)]
pub struct Begun {
    /// Its number.
    pub record: u32,
    /// The store message of the first member. Those of the others have the numbers behind it.
    pub first: u64,
}

/// Writes that were synced.
#[derive(Clone, Copy, Debug, PartialEq, Eq, Hash)]
pub struct Synced {
    /// How many.
    pub count: u64,
    /// The acknowledgement of the first. Those of the others have the numbers behind it.
    pub first: u64,
}

/// What was delivered.
#[derive(Clone, Copy, Debug, PartialEq, Eq, Hash)]
pub enum Delivered {
    /// A store message.
    Stored,
    /// An acknowledgement.
    Marked {
        /// Whether the record is acknowledged now.
        acked: bool,
    },
}

/// The acts by numbers. Each stands in the journal afterwards, refused or not.
///
/// Each may answer [`Error::JournalFull`] and [`Error::NoMemory`], in this order: nothing changed
/// then. [`Error::Refused`] and [`Error::RefusedBy`] have the first reason that holds, which
/// `faultyard.h` lists for each.
impl Guard {
    /// Holds back the messages of each process whose key has this value for so many ticks. The rule
    /// that bars it is answered, where one does.
    ///
    /// # Errors
    ///
    /// [`Error::Name`].
    pub fn clog(
        &mut self,
        actor: u32,
        key: Key,
        value: &str,
        ticks: u64,
    ) -> Result<Option<Rule>, Error> {
        let told = self.made(|guard, reply| {
            let (bytes, length) = (value.as_ptr(), value.len());
            // SAFETY: as `made` says. The value is a slice with its length.
            unsafe { sys::fy_clog(guard, actor, key.into(), bytes, length, ticks, reply) }
        })?;
        Rule::of(told.rule, told.named)
    }

    /// Ends the clogs of each process whose key has this value. The rule that bars it is answered,
    /// where one does.
    ///
    /// # Errors
    ///
    /// [`Error::Name`].
    pub fn unclog(&mut self, actor: u32, key: Key, value: &str) -> Result<Option<Rule>, Error> {
        let told = self.made(|guard, reply| {
            let (bytes, length) = (value.as_ptr(), value.len());
            // SAFETY: as `made` says. The value is a slice with its length.
            unsafe { sys::fy_unclog(guard, actor, key.into(), bytes, length, reply) }
        })?;
        Rule::of(told.rule, told.named)
    }

    /// Forms a team of these processes, by rising number, under a policy. Its number is answered.
    ///
    /// # Errors
    ///
    /// [`Error::Argument`] where the numbers don't rise, or are more than 1024.
    pub fn form(&mut self, actor: u32, members: &[u32], policy: u32) -> Result<u32, Error> {
        let told = self.made(|guard, reply| {
            // SAFETY: as `made` says. The members are a slice with its length.
            unsafe { sys::fy_form(guard, actor, members.as_ptr(), members.len(), policy, reply) }
        })?;
        Ok(told.team)
    }

    /// Begins a record for a team, and sends each member a store message.
    ///
    /// # Errors
    ///
    /// [`Error::Argument`] where the payload has more than 32,000 bytes. One of more than 256 is
    /// refused.
    pub fn begin(
        &mut self,
        actor: u32,
        team: u32,
        payload: impl AsRef<[u8]>,
    ) -> Result<Begun, Error> {
        let payload = payload.as_ref();
        let told = self.made(|guard, reply| {
            // SAFETY: as `made` says. The payload is a slice with its length.
            unsafe { sys::fy_begin(guard, actor, team, payload.as_ptr(), payload.len(), reply) }
        })?;
        Ok(Begun {
            record: told.record,
            first: told.message,
        })
    }

    /// Delivers a message in flight.
    pub fn deliver(&mut self, actor: u32, message: u64) -> Result<Delivered, Error> {
        let told = self.made(|guard, reply| {
            // SAFETY: as `made` says.
            unsafe { sys::fy_deliver(guard, actor, message, reply) }
        })?;
        let acked = told.acked != 0;
        Ok(match told.marked {
            0 => Delivered::Stored,
            _ => Delivered::Marked { acked },
        })
    }

    /// Drops a message in flight.
    pub fn lose(&mut self, actor: u32, message: u64) -> Result<(), Error> {
        self.done(|guard, reply| {
            // SAFETY: as `made` says.
            unsafe { sys::fy_lose(guard, actor, message, reply) }
        })
    }

    /// Sends a member the store message of a record again. The message's number is answered.
    pub fn resend(&mut self, actor: u32, record: u32, process: u32) -> Result<u64, Error> {
        let told = self.made(|guard, reply| {
            // SAFETY: as `made` says.
            unsafe { sys::fy_resend(guard, actor, record, process, reply) }
        })?;
        Ok(told.message)
    }

    /// Syncs what a process has written, and sends an acknowledgement of each write.
    pub fn sync(&mut self, actor: u32, process: u32) -> Result<Synced, Error> {
        let told = self.made(|guard, reply| {
            // SAFETY: as `made` says.
            unsafe { sys::fy_sync(guard, actor, process, reply) }
        })?;
        Ok(Synced {
            count: told.synced,
            first: told.message,
        })
    }

    /// Lets time pass. The time is answered.
    pub fn tick(&mut self, actor: u32, ticks: u64) -> Result<u64, Error> {
        let told = self.made(|guard, reply| {
            // SAFETY: as `made` says.
            unsafe { sys::fy_tick(guard, actor, ticks, reply) }
        })?;
        Ok(told.now)
    }

    /// Gives another actor a grant of these kinds.
    ///
    /// # Errors
    ///
    /// [`Error::Name`].
    pub fn give(
        &mut self,
        actor: u32,
        to: u32,
        kinds: Kinds,
        scope: Scope<'_>,
    ) -> Result<(), Error> {
        let (key, value) = match scope {
            Scope::All => (sys::EVERYONE, ""),
            Scope::Where(key, value) => (key.into(), value),
        };
        self.done(|guard, reply| {
            let (bytes, length) = (value.as_ptr(), value.len());
            // SAFETY: as `made` says. The value is a slice with its length.
            unsafe { sys::fy_give(guard, actor, to, kinds.0, key, bytes, length, reply) }
        })
    }

    /// Takes away the grant at a place, from 0, of another actor's list.
    pub fn take(&mut self, actor: u32, from: u32, index: u32) -> Result<(), Error> {
        self.done(|guard, reply| {
            // SAFETY: as `made` says.
            unsafe { sys::fy_take(guard, actor, from, index, reply) }
        })
    }

    /// Bars kinds on a process, for every actor.
    pub fn protect(&mut self, actor: u32, process: u32, kinds: Kinds) -> Result<(), Error> {
        self.done(|guard, reply| {
            // SAFETY: as `made` says.
            unsafe { sys::fy_protect(guard, actor, process, kinds.0, reply) }
        })
    }

    /// Bars kinds on a process no longer.
    pub fn unprotect(&mut self, actor: u32, process: u32, kinds: Kinds) -> Result<(), Error> {
        self.done(|guard, reply| {
            // SAFETY: as `made` says.
            unsafe { sys::fy_unprotect(guard, actor, process, kinds.0, reply) }
        })
    }

    /// Sends the store message of a record from a process that has it synced to another. The
    /// message's number is answered.
    pub fn copy(&mut self, actor: u32, from: u32, record: u32, to: u32) -> Result<u64, Error> {
        let told = self.made(|guard, reply| {
            // SAFETY: as `made` says.
            unsafe { sys::fy_copy(guard, actor, from, record, to, reply) }
        })?;
        Ok(told.message)
    }

    /// Puts a process into a team in place of the member `out`.
    pub fn replace(&mut self, actor: u32, team: u32, out: u32, into: u32) -> Result<(), Error> {
        self.done(|guard, reply| {
            // SAFETY: as `made` says.
            unsafe { sys::fy_replace(guard, actor, team, out, into, reply) }
        })
    }

    /// Makes an act by a call of the library, and what the library tells of it. The call gets an
    /// open guard that no other call uses meanwhile, and a reply of its own to write.
    fn made(
        &mut self,
        call: impl FnOnce(&mut FyGuard, &mut FyReply) -> u32,
    ) -> Result<FyReply, Error> {
        let mut reply = FyReply::default();
        let status = call(self.raw_mut(), &mut reply);
        refused_by(status, reply.refusal, reply.named)?;
        Ok(reply)
    }

    /// The same, of an act that tells nothing.
    fn done(&mut self, call: impl FnOnce(&mut FyGuard, &mut FyReply) -> u32) -> Result<(), Error> {
        self.made(call).map(|_| ())
    }
}
