//! Why a call failed.

use crate::words::by_number;
use crate::{Part, Refusal};
use std::ops::RangeInclusive;
use std::{fmt, io};

/// Why a call failed.
///
/// After [`Refused`](Error::Refused), [`RefusedBy`](Error::RefusedBy) and
/// [`Unwritten`](Error::Unwritten) the act stands in the journal. After any other nothing changed.
#[derive(Clone, Copy, Debug, PartialEq, Eq, Hash)]
#[non_exhaustive]
pub enum Error {
    /// There was no memory.
    NoMemory,
    /// The journal has as many entries as the cluster file allows.
    JournalFull,
    /// The act is refused.
    Refused(Refusal),
    /// An act by numbers is refused by a policy or a record.
    RefusedBy {
        /// [`Refusal::TeamShort`] or [`Refusal::StillNeeds`].
        refusal: Refusal,
        /// The policy that the members don't satisfy, or the record that the process lacks.
        named: u32,
    },
    /// The act is made, but its line could not be written. No test has met it.
    Unwritten,
    /// The journal has no entry at this place.
    NoEntry,
    /// The members don't rise or are more than 1024, the payload has more than 32,000 bytes, or no
    /// process has the number by which it is to be killed.
    Argument,
    /// The value of the target is no name: 1 to 32 of `A-Z a-z 0-9 _ -`, the first not `-`.
    Name,
    /// The floor of the kill is above its kind.
    Floor,
    /// The line has more than 65,536 bytes.
    LineTooLong,
    /// The line is no command of a script, or no entry of an audit.
    LineSyntax,
    /// The first line of the audit is no header of a version.
    NoHeader,
    /// The lines of the audit have more than 268,435,456 bytes together.
    AuditTooLong,
    /// The entry of the audit at this place, from 0, isn't what the rules give.
    Refuted(u32),
    /// The text is no cluster file.
    Config(ConfigFault),
    /// The library answered what this crate doesn't know, so it is of another version.
    Protocol(&'static str),
}

/// Why a text is no cluster file, and where. As text it is what the fault line of `faultyard run`
/// says, and what that means.
#[derive(Clone, Copy, Debug, PartialEq, Eq, Hash)]
#[non_exhaustive]
pub enum ConfigFault {
    /// It has more than 1,048,576 bytes.
    TooLong,
    /// It is no TOML document in UTF-8.
    Toml,
    /// A key is missing, unknown or of another type, or a word is none of those that may stand
    /// there.
    Field {
        /// Where.
        part: Part,
    },
    /// A number or a length is outside its range.
    Limit {
        /// Where.
        part: Part,
    },
    /// A text is no name, or names what is taken or isn't there.
    Name {
        /// Where.
        part: Part,
        /// The number of the process, actor or protection, from 0.
        place: u32,
    },
    /// A text is no policy.
    Policy {
        /// The number of the policy, from 0.
        place: u32,
    },
    /// All processes together don't satisfy one of the policies.
    Unmet {
        /// The number of the policy, from 0.
        place: u32,
    },
}

impl ConfigFault {
    /// The statuses that tell one.
    pub(crate) const STATUSES: RangeInclusive<u32> = 12..=18;

    /// The part of the cluster file that it is in; `None` where it is of the whole file.
    pub const fn part(self) -> Option<Part> {
        match self {
            ConfigFault::TooLong | ConfigFault::Toml => None,
            ConfigFault::Field { part }
            | ConfigFault::Limit { part }
            | ConfigFault::Name { part, .. } => Some(part),
            ConfigFault::Policy { .. } | ConfigFault::Unmet { .. } => Some(Part::Policies),
        }
    }

    /// Its place in that part, from 0, where it names one.
    pub const fn place(self) -> Option<u32> {
        match self {
            ConfigFault::Name { place, .. }
            | ConfigFault::Policy { place }
            | ConfigFault::Unmet { place } => Some(place),
            _ => None,
        }
    }

    /// The fault that a status tells with a part and a place, or the error that it tells.
    pub(crate) fn of(status: u32, part: u32, place: u64) -> Result<ConfigFault, Error> {
        let part = by_number(Part::ALL, part).ok_or(Error::Protocol("a part"));
        let place = u32::try_from(place).map_err(|_| Error::Protocol("a number"))?;
        let fault = match status {
            12 => ConfigFault::TooLong,
            13 => ConfigFault::Toml,
            14 => ConfigFault::Field { part: part? },
            15 => ConfigFault::Limit { part: part? },
            16 => ConfigFault::Name { part: part?, place },
            17 => ConfigFault::Policy { place },
            18 => ConfigFault::Unmet { place },
            _ => return Err(Error::of(status)),
        };
        Ok(fault)
    }
}

impl Error {
    /// What a status that isn't `FY_DONE` tells, where no refusal is known.
    fn of(status: u32) -> Error {
        match status {
            1 => Error::NoMemory,
            2 => Error::JournalFull,
            5 => Error::Unwritten,
            6 => Error::NoEntry,
            7 => Error::Argument,
            8 => Error::Name,
            9 => Error::Floor,
            10 => Error::LineTooLong,
            11 => Error::LineSyntax,
            20 => Error::NoHeader,
            21 => Error::AuditTooLong,
            // ConfigFault::of has those of a cluster file. No call of this crate meets FY_SHORT or
            // FY_CLOSED.
            _ => Error::Protocol("a status"),
        }
    }
}

/// `FY_DONE` as `Ok`, and any other status as the error that it tells.
pub(crate) fn done(status: u32) -> Result<(), Error> {
    match status {
        0 => Ok(()),
        status => Err(Error::of(status)),
    }
}

/// The same, of a call that tells the number of its refusal beside `FY_REFUSED`.
pub(crate) fn accepted(status: u32, refusal: u32) -> Result<(), Error> {
    match status {
        3 => {
            Err(by_number(Refusal::ALL, refusal)
                .map_or(Error::Protocol("a refusal"), Error::Refused))
        }
        status => done(status),
    }
}

/// The same, of a call that also tells what its refusal names.
pub(crate) fn refused_by(status: u32, refusal: u32, named: u64) -> Result<(), Error> {
    match accepted(status, refusal) {
        Err(Error::Refused(refusal @ (Refusal::TeamShort | Refusal::StillNeeds))) => {
            let named = u32::try_from(named).map_err(|_| Error::Protocol("a number"))?;
            Err(Error::RefusedBy { refusal, named })
        }
        answer => answer,
    }
}

impl fmt::Display for Error {
    fn fmt(&self, f: &mut fmt::Formatter<'_>) -> fmt::Result {
        match self {
            Error::NoMemory => write!(f, "there was no memory"),
            Error::JournalFull => write!(f, "the journal is full: see journal_limit"),
            Error::Refused(refusal) => write!(f, "the act is refused: {refusal}"),
            Error::RefusedBy { refusal, named } => {
                write!(f, "the act is refused: {refusal} {named}")
            }
            Error::Unwritten => write!(f, "the act is made, but its line could not be written"),
            Error::NoEntry => write!(f, "the journal has no entry at this place"),
            Error::Argument => write!(
                f,
                "members don't rise, a payload is too long, or no process has the number"
            ),
            Error::Name => write!(f, "the value of the target is no name"),
            Error::Floor => write!(f, "the floor of the kill is above its kind"),
            Error::LineTooLong => write!(f, "the line has more than 65,536 bytes"),
            Error::LineSyntax => {
                write!(
                    f,
                    "the line is no command of a script, or no entry of an audit"
                )
            }
            Error::NoHeader => {
                write!(f, "the first line of the audit is no header of a version")
            }
            Error::AuditTooLong => {
                write!(f, "the lines of the audit have more than 268,435,456 bytes")
            }
            Error::Refuted(entry) => {
                write!(f, "entry {entry} of the audit isn't what the rules give")
            }
            Error::Config(fault) => write!(f, "config: {fault}"),
            Error::Protocol(what) => {
                write!(
                    f,
                    "libfaultyard is of another version: {what} isn't known here"
                )
            }
        }
    }
}

impl fmt::Display for ConfigFault {
    fn fmt(&self, f: &mut fmt::Formatter<'_>) -> fmt::Result {
        match self {
            ConfigFault::TooLong => write!(f, "TooLong: it has more than 1,048,576 bytes"),
            ConfigFault::Toml => write!(f, "Toml: it is no TOML document in UTF-8"),
            ConfigFault::Field { part } => {
                write!(f, "Field {part}: a key or a word is wrong or missing")
            }
            ConfigFault::Limit { part } => {
                write!(f, "Limit {part}: a number or a length is outside its range")
            }
            ConfigFault::Name { part, place } => {
                write!(f, "Name {part} {place}: a text is no name, ")?;
                write!(f, "or names what is taken or isn't there")
            }
            ConfigFault::Policy { place } => write!(f, "Policy {place}: it is no policy"),
            ConfigFault::Unmet { place } => {
                write!(
                    f,
                    "PolicyUnmet {place}: all processes together don't satisfy it"
                )
            }
        }
    }
}

impl std::error::Error for Error {}

impl std::error::Error for ConfigFault {}

impl From<Error> for io::Error {
    fn from(error: Error) -> io::Error {
        let kind = match error {
            Error::NoMemory => io::ErrorKind::OutOfMemory,
            _ => io::ErrorKind::Other,
        };
        io::Error::new(kind, error)
    }
}

#[cfg(test)]
mod tests {
    use super::*;

    /// Those that no call meets: tests/calls.rs has the others.
    #[test]
    fn statuses_that_no_call_meets() {
        assert_eq!(done(5), Err(Error::Unwritten));
        let unknown = Err(Error::Protocol("a status"));
        for status in [4, 19, u32::MAX] {
            assert_eq!(done(status), unknown);
        }
        assert_eq!(done(3), unknown);
        assert_eq!(accepted(3, 26), Err(Error::Protocol("a refusal")));
    }

    #[test]
    fn each_refusal_by_its_number() {
        for (at, refusal) in (1..).zip(Refusal::ALL) {
            assert_eq!(accepted(3, at), Err(Error::Refused(*refusal)));
        }
        assert_eq!(accepted(0, 0), Ok(()));
        assert_eq!(accepted(2, 0), Err(Error::JournalFull));
    }

    #[test]
    fn a_refusal_with_what_it_names() {
        let by = |refusal, named| Err(Error::RefusedBy { refusal, named });
        assert_eq!(refused_by(3, 7, 5), by(Refusal::TeamShort, 5));
        assert_eq!(refused_by(3, 25, 0), by(Refusal::StillNeeds, 0));
        assert_eq!(refused_by(3, 6, 0), Err(Error::Refused(Refusal::Gone)));
        assert_eq!(refused_by(3, 7, 1 << 32), Err(Error::Protocol("a number")));
        assert_eq!(refused_by(0, 0, 0), Ok(()));
        let told = Error::RefusedBy {
            refusal: Refusal::TeamShort,
            named: 5,
        };
        assert_eq!(told.to_string(), "the act is refused: TeamShort 5");
    }

    #[test]
    fn faults_that_no_library_of_this_version_answers() {
        let unknown = |what| Err(Error::Protocol(what));
        for status in [14, 15, 16] {
            for part in [0, 7] {
                assert_eq!(ConfigFault::of(status, part, 0), unknown("a part"));
            }
        }
        assert_eq!(ConfigFault::of(17, 2, 1 << 32), unknown("a number"));
        for status in [0, 19] {
            assert_eq!(ConfigFault::of(status, 0, 0), unknown("a status"));
        }
        assert_eq!(ConfigFault::of(1, 0, 0), Err(Error::NoMemory));
    }

    #[test]
    fn an_error_says_what_is_wrong() {
        let refused = Error::Refused(Refusal::StillNeeds);
        assert_eq!(refused.to_string(), "the act is refused: StillNeeds");
        let config = Error::Config(ConfigFault::Policy { place: 1 });
        assert_eq!(config.to_string(), "config: Policy 1: it is no policy");
        let io = io::Error::from(Error::NoMemory);
        assert_eq!(io.kind(), io::ErrorKind::OutOfMemory);
        assert_eq!(io::Error::from(refused).kind(), io::ErrorKind::Other);
    }
}
