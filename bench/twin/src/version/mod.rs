//! The orders of versions.

mod debian;
mod digits;
mod pypi;
mod semver;

pub use self::debian::Debian;
pub use self::pypi::Pypi;
pub use self::semver::SemVer;

/// Which versions are read, and how they compare.
pub enum Order {
    SemVer,
    Pypi,
    Debian,
}

/// What is read from a text, or `None` where it is no version.
pub trait Read<'a>: Sized {
    fn read(text: &'a str) -> Option<Self>;
}

/// A version that is asked for, read once in each order.
pub struct Version<'a> {
    pub text: &'a str,
    pub semver: Option<SemVer>,
    pub pypi: Option<Pypi<'a>>,
    pub debian: Option<Debian<'a>>,
}

impl<'a> Version<'a> {
    pub fn new(text: &'a str) -> Self {
        Version {
            text,
            semver: Read::read(text),
            pypi: Read::read(text),
            debian: Read::read(text),
        }
    }
}
