//! The answer to an order to kill.

use crate::words::by_number;
use crate::{Error, Kind};
use std::fmt;

/// The answer to an order to kill.
///
/// | `struck` | Do to each process of the target that isn't gone |
/// |---|---|
/// | `None` | nothing |
/// | [`Kind::RebootProcess`], [`Kind::Reboot`] | end it, and start it again |
/// | [`Kind::RebootAndDelete`] | end it, remove its data, bring it back as a new member |
/// | [`Kind::KillInstantly`] | end it, remove its data, never start it again |
#[derive(Clone, Copy, Debug, PartialEq, Eq, Hash)]
#[must_use = "do to the processes what `struck` says"]
pub struct Verdict {
    /// The kind that struck.
    pub struck: Option<Kind>,
    /// Why it isn't the kind that was ordered; `None` where it is.
    pub rule: Option<Rule>,
}

impl Verdict {
    /// The verdict that `fy_kill` tells by these three numbers.
    pub(crate) fn of(struck: u32, rule: u32, named: u64) -> Result<Verdict, Error> {
        let struck = struck_by(struck)?;
        let rule = Rule::of(rule, named)?;
        Ok(Verdict { struck, rule })
    }
}

/// The kind with this number; none with 0.
pub(crate) fn struck_by(number: u32) -> Result<Option<Kind>, Error> {
    match number {
        0 => Ok(None),
        number => by_number(Kind::ALL, number)
            .map(Some)
            .ok_or(Error::Protocol("a kind")),
    }
}

/// Why the kind that was ordered is barred: the first rule that holds.
#[derive(Clone, Copy, Debug, PartialEq, Eq, Hash)]
#[non_exhaustive]
pub enum Rule {
    /// No process that is left has the value.
    NoTarget,
    /// No grant of the actor covers this process.
    NoGrant {
        /// Its number.
        process: u32,
    },
    /// This process is protected.
    Protected {
        /// Its number.
        process: u32,
    },
    /// The destroyed would satisfy this policy.
    TooManyDestroyed {
        /// Its number.
        policy: u32,
    },
    /// Those left would be short of this policy.
    TooFewLeft {
        /// Its number.
        policy: u32,
    },
}

impl Rule {
    pub(crate) fn of(rule: u32, named: u64) -> Result<Option<Rule>, Error> {
        let number = u32::try_from(named).map_err(|_| Error::Protocol("a number"))?;
        match rule {
            0 => Ok(None),
            1 => Ok(Some(Rule::NoTarget)),
            2 => Ok(Some(Rule::NoGrant { process: number })),
            3 => Ok(Some(Rule::Protected { process: number })),
            4 => Ok(Some(Rule::TooManyDestroyed { policy: number })),
            5 => Ok(Some(Rule::TooFewLeft { policy: number })),
            _ => Err(Error::Protocol("a rule")),
        }
    }

    /// Its word in audits.
    pub const fn word(self) -> &'static str {
        match self {
            Rule::NoTarget => "NoTarget",
            Rule::NoGrant { .. } => "NoGrant",
            Rule::Protected { .. } => "Protected",
            Rule::TooManyDestroyed { .. } => "TooManyDestroyed",
            Rule::TooFewLeft { .. } => "TooFewLeft",
        }
    }

    /// The number of the process or of the policy that it names.
    pub const fn named(self) -> Option<u32> {
        match self {
            Rule::NoTarget => None,
            Rule::NoGrant { process } | Rule::Protected { process } => Some(process),
            Rule::TooManyDestroyed { policy } | Rule::TooFewLeft { policy } => Some(policy),
        }
    }
}

impl fmt::Display for Rule {
    fn fmt(&self, f: &mut fmt::Formatter<'_>) -> fmt::Result {
        match self {
            Rule::NoTarget => write!(f, "no process that is left has the value"),
            Rule::NoGrant { process } => {
                write!(f, "no grant of the actor covers process {process}")
            }
            Rule::Protected { process } => write!(f, "process {process} is protected"),
            Rule::TooManyDestroyed { policy } => {
                write!(f, "the destroyed would satisfy policy {policy}")
            }
            Rule::TooFewLeft { policy } => {
                write!(f, "those left would be short of policy {policy}")
            }
        }
    }
}

#[cfg(test)]
mod tests {
    use super::*;

    #[test]
    fn numbers_that_no_library_of_this_version_answers() {
        let unknown = |what| Err(Error::Protocol(what));
        assert_eq!(Verdict::of(5, 0, 0), unknown("a kind"));
        assert_eq!(Verdict::of(0, 6, 0), unknown("a rule"));
        assert_eq!(Verdict::of(0, 4, 1 << 32), unknown("a number"));
    }

    #[test]
    fn each_rule_by_its_number() {
        let rules = [
            Rule::NoTarget,
            Rule::NoGrant { process: 7 },
            Rule::Protected { process: 7 },
            Rule::TooManyDestroyed { policy: 7 },
            Rule::TooFewLeft { policy: 7 },
        ];
        for (number, rule) in (1..).zip(rules) {
            let named = u64::from(rule.named().unwrap_or(0));
            let verdict = Verdict::of(0, number, named).unwrap();
            assert_eq!((verdict.struck, verdict.rule), (None, Some(rule)));
        }
    }
}
