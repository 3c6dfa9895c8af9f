//! The version of the library.

use crate::sys;
use std::fmt;

/// A version, as `1.0.0`.
#[derive(Clone, Copy, Debug, PartialEq, Eq, PartialOrd, Ord, Hash)]
pub struct Version {
    /// Another one promises other calls and formats.
    pub major: u32,
    /// A higher one has more of them.
    pub minor: u32,
    /// A higher one has faults mended.
    pub patch: u32,
}

/// The version of the library that is linked. `CARGO_PKG_VERSION` is that of the crate.
pub fn version() -> Version {
    // SAFETY: it takes nothing, and answers a number of the library's text.
    Version::of(unsafe { sys::fy_version() })
}

impl Version {
    /// The version that `fy_version` tells by this number.
    fn of(number: u32) -> Version {
        Version {
            major: number / 10_000,
            minor: number / 100 % 100,
            patch: number % 100,
        }
    }
}

impl fmt::Display for Version {
    fn fmt(&self, f: &mut fmt::Formatter<'_>) -> fmt::Result {
        write!(f, "{}.{}.{}", self.major, self.minor, self.patch)
    }
}

#[cfg(test)]
mod tests {
    use super::*;

    #[test]
    fn a_number_is_three() {
        let versions = [10_000, 10_102, 19_999, 20_000, 120_304].map(Version::of);
        let told = versions.map(|it| it.to_string());
        assert_eq!(told, ["1.0.0", "1.1.2", "1.99.99", "2.0.0", "12.3.4"]);
        assert!(versions.windows(2).all(|it| it[0] < it[1]));
    }
}
