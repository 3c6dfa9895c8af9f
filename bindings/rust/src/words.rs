//! The enums of the header that are numbers alone.

use std::fmt;

/// Defines an enum by its variants, their numbers in the header, and their words in the formats.
macro_rules! numbered {
    (
        $(#[$about:meta])*
        $name:ident { $($(#[$doc:meta])* $variant:ident = $number:literal, $word:literal;)* }
    ) => {
        $(#[$about])*
        #[derive(Clone, Copy, Debug, PartialEq, Eq, PartialOrd, Ord, Hash)]
        #[repr(u32)]
        pub enum $name {
            $($(#[$doc])* $variant = $number,)*
        }

        impl $name {
            /// All of them, by rising number.
            pub const ALL: &'static [$name] = &[$($name::$variant),*];

            /// Its word in cluster files, scripts, audits and fault lines.
            pub const fn word(self) -> &'static str {
                match self {
                    $($name::$variant => $word,)*
                }
            }

            /// The one with this word.
            pub fn from_word(word: &str) -> Option<$name> {
                $name::ALL.iter().copied().find(|it| it.word() == word)
            }
        }

        impl From<$name> for u32 {
            /// Its number in the header.
            fn from(it: $name) -> u32 {
                it as u32
            }
        }

        impl fmt::Display for $name {
            fn fmt(&self, f: &mut fmt::Formatter<'_>) -> fmt::Result {
                f.pad(self.word())
            }
        }
    };
}

/// The one of a list with this number in the header.
pub(crate) fn by_number<T: Copy + Into<u32>>(all: &[T], number: u32) -> Option<T> {
    all.iter().copied().find(|it| (*it).into() == number)
}

numbered! {
    /// What a kill does to a process, from the mildest to the hardest.
    ///
    /// It isn't `non_exhaustive`: a program has to do each of them.
    Kind {
        /// Down; nothing on its disk is lost.
        RebootProcess = 1, "RebootProcess";
        /// Down; what its disk hasn't synced may be lost.
        Reboot = 2, "Reboot";
        /// Down, and its disk is emptied.
        RebootAndDelete = 3, "RebootAndDelete";
        /// Gone for good, and its disk is emptied.
        KillInstantly = 4, "KillInstantly";
    }
}

impl Kind {
    /// Whether it empties the disk: the process is then destroyed until it is healed.
    pub const fn empties_disk(self) -> bool {
        matches!(self, Kind::RebootAndDelete | Kind::KillInstantly)
    }

    /// Whether the process never runs again.
    pub const fn is_final(self) -> bool {
        matches!(self, Kind::KillInstantly)
    }
}

numbered! {
    /// By which part of its place a process is meant.
    Key {
        /// Its own name.
        Process = 1, "processid";
        /// Its machine.
        Machine = 2, "machineid";
        /// Its zone.
        Zone = 3, "zoneid";
        /// Its data hall.
        DataHall = 4, "data_hall";
        /// Its data center.
        DataCenter = 5, "dcid";
    }
}

numbered! {
    /// A part of a cluster file, in the order in which they are looked at.
    #[non_exhaustive]
    Part {
        /// `journal_limit`.
        JournalLimit = 1, "JournalLimit";
        /// `policies`.
        Policies = 2, "Policies";
        /// `process`.
        Process = 3, "Process";
        /// `actor`.
        Actor = 4, "Actor";
        /// `protect`.
        Protect = 5, "Protect";
        /// A key at the top that is none of these.
        Unknown = 6, "Unknown";
    }
}

numbered! {
    /// Why an act is refused.
    #[non_exhaustive]
    Refusal {
        /// There is no actor with the number of whoever acts.
        Stranger = 1, "Stranger";
        /// The actor's role may not make this act.
        WrongRole = 2, "WrongRole";
        /// There are as many teams, or records, as there may be.
        TooMany = 3, "TooMany";
        /// There is no policy with this number.
        NoPolicy = 4, "NoPolicy";
        /// There is no process with this number.
        NoProcess = 5, "NoProcess";
        /// The process is gone for good.
        Gone = 6, "Gone";
        /// The members don't satisfy the policy.
        TeamShort = 7, "TeamShort";
        /// There is no team with this number.
        NoTeam = 8, "NoTeam";
        /// The payload has more than 256 bytes.
        Payload = 9, "Payload";
        /// There would be too many messages in flight.
        NetFull = 10, "NetFull";
        /// No message in flight has this number.
        NoMessage = 11, "NoMessage";
        /// The message's process is clogged.
        Clogged = 12, "Clogged";
        /// The process isn't up.
        NotUp = 13, "NotUp";
        /// There is no record with this number.
        NoRecord = 14, "NoRecord";
        /// The process is no member of the record's team.
        NotMember = 15, "NotMember";
        /// The record is acknowledged.
        Acked = 16, "Acked";
        /// The process is up already.
        IsUp = 17, "IsUp";
        /// The time would be past its end.
        ClockEnd = 18, "ClockEnd";
        /// There is no actor with the number that the act names.
        NoActor = 19, "NoActor";
        /// There are as many grants as there may be.
        Full = 20, "Full";
        /// The actor has no grant at this place.
        NoSuch = 21, "NoSuch";
        /// The process hasn't synced the record that is to be copied.
        NoCopy = 22, "NoCopy";
        /// The process is a member of the team already.
        IsMember = 23, "IsMember";
        /// The process isn't destroyed.
        NotDestroyed = 24, "NotDestroyed";
        /// The process lacks an acknowledged record of its team.
        StillNeeds = 25, "StillNeeds";
    }
}
